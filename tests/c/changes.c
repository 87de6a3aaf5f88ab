/*
 * Ten thousand operations by chance, the same in every run, on guards of a row and on the same guards alone: starts,
 * asks, tells of outcomes and of bytes that are none, and changes of the battery, in which a guard is written to a
 * record, forgotten and read back. Beside each guard stands its story, all outcomes that it was told since its start,
 * which knows nothing of changes. What the guard has to hold and to answer is worked out from the story and the meaning
 * of the limits, before and after each operation. What is lent lies in blocks of its exact size.
 */
#include <floelinnet.h>
#include <stdio.h>
#include <stdlib.h>
#include <string.h>

enum { OPERATIONS = 10000, JOBS = 3, LONGEST_STORY = 60 };

#define HOLDS(fact) ((fact) ? (void)0 : fail(__LINE__, #fact))

static void fail(int line, const char *fact) {
    printf("line %d: %s\n", line, fact);
    exit(1);
}

static const floe_set sets[] = {
    {2, {{FLOE_ANY_MISS, 4, 9}, {FLOE_ROW_MISS, 3, 0}}},
    {1, {{FLOE_ANY_HIT, 1, 12}}},
    {1, {{FLOE_ROW_HIT, 2, 7}}},
    {3, {{FLOE_ANY_HIT, 2, 5}, {FLOE_ROW_HIT, 1, 4}, {FLOE_ANY_MISS, 6, 12}}},
    {2, {{FLOE_ANY_MISS, 12, 12}, {FLOE_ROW_MISS, 9, 0}}},
    {2, {{FLOE_ANY_HIT, 3, 16}, {FLOE_ROW_MISS, 13, 0}}},
    {1, {{FLOE_ROW_HIT, 3, 16}}},
    {1, {{FLOE_ANY_MISS, 3, 16}}},
};
enum { SETS = sizeof sets / sizeof *sets };

/* Marsaglia's xorshift64, of which the high bits are taken. */
static uint64_t drawn = 15;

static unsigned below(unsigned bound) {
    drawn ^= drawn >> 12;
    drawn ^= drawn << 25;
    drawn ^= drawn >> 27;
    return (unsigned)((drawn * UINT64_C(0x2545F4914F6CDD1D)) >> 40) % bound;
}

/* The outcomes told, and how long their longest beginning is that the set keeps. */
typedef struct { uint8_t told[LONGEST_STORY + 1]; int count, kept; } story;

static int outcome(const uint8_t *pattern, int jobs, int job) {
    return job >= 0 && job < jobs ? pattern[job] : (int)FLOE_HIT;
}

/* Does the limit hold in the window of this width that begins with this job, with hits around the pattern? */
static bool holds(floe_limit limit, int width, const uint8_t *pattern, int jobs, int first) {
    int hits = 0, in_row = 0, longest = 0;
    for (int job = first; job < first + width; job++) {
        in_row = outcome(pattern, jobs, job) == FLOE_HIT ? in_row + 1 : 0;
        hits += in_row > 0;
        if (in_row > longest) longest = in_row;
    }
    switch (limit.kind) {
    case FLOE_ANY_HIT: return hits >= limit.x;
    case FLOE_ROW_HIT: return longest >= limit.x;
    case FLOE_ANY_MISS: return width - hits <= limit.x;
    default: return hits > 0;
    }
}

static bool keeps(const floe_set *set, const uint8_t *pattern, int jobs) {
    for (uint64_t i = 0; i < set->count; i++) {
        floe_limit limit = set->limits[i];
        int width = limit.kind == FLOE_ROW_MISS ? limit.x : limit.k;
        for (int first = -width; first <= jobs; first++)
            if (!holds(limit, width, pattern, jobs, first)) return false;
    }
    return true;
}

static void tell(story *s, const floe_set *set, uint8_t told) {
    bool lost = s->kept < s->count;
    s->told[s->count++] = told;
    if (!lost && keeps(set, s->told, s->count)) s->kept++;
}

static uint64_t answer(const story *s, const floe_set *set) {
    story next = *s;
    if (s->kept < s->count) return FLOE_LOST;
    tell(&next, set, FLOE_MISS);
    return next.kept < next.count ? FLOE_PANIC : FLOE_NORMAL;
}

/* The state to which the beginning that is kept leads on the table. */
static unsigned state(const story *s, const uint8_t *table) {
    unsigned state = 0;
    for (int job = 0; job < s->kept; job++) {
        const uint8_t *entry = table + 7 + 4 * state + 2 * s->told[job];
        state = 256u * entry[0] + entry[1];
    }
    return state;
}

static void holds_what_it_was_told(floe_guard guard, const story *s, const uint8_t *table) {
    HOLDS(guard.state == state(s, table));
    HOLDS(guard.lost == (s->kept < s->count));
    HOLDS(guard.count == (uint64_t)s->count);
    for (int i = 0; i < FLOE_HELD; i++)
        HOLDS(guard.outcomes[i] == (outcome(s->told, s->kept, s->kept - FLOE_HELD + i) == FLOE_HIT));
}

static void nothing_told(floe_guard guard) {
    HOLDS(guard.state == 0 && !guard.lost && guard.count == 0);
    for (int i = 0; i < FLOE_HELD; i++) HOLDS(guard.outcomes[i]);
}

static uint8_t *block(size_t bytes) {
    uint8_t *block = (uint8_t *)malloc(bytes);
    if (block == NULL) exit(1);
    return block;
}

/* The same guard from a record that was written before, of version 1, into a block of its exact size: its last 11 outcomes,
 * and hits in the places of the older ones. With a window of more than 12 jobs it is refused by 20. */
static void change_from_old(floe_guard guard, const floe_set *limits, const uint8_t *set, size_t set_len,
                            const uint8_t *table, size_t table_len) {
    size_t length = FLOE_OLD_RECORD_SIZE(set_len), old_held = length - set_len - 14;
    uint8_t *record = block(length);
    record[0] = record[1] = record[2] = 0;
    record[3] = (uint8_t)(length - 4);
    record[4] = 1;
    memcpy(record + 5, set, set_len);
    for (size_t i = 0; i < old_held; i++) record[5 + set_len + i] = guard.outcomes[FLOE_HELD - old_held + i];
    for (int i = 0; i < 8; i++) record[length - 9 + (size_t)i] = (uint8_t)(guard.count >> (56 - 8 * i));
    record[length - 1] = guard.lost;
    bool longer = false;
    for (uint64_t i = 0; i < limits->count; i++)
        longer |= (limits->limits[i].kind == FLOE_ROW_MISS ? limits->limits[i].x : limits->limits[i].k) > 12;
    floe_started read = floe_carry_read(record, length, table, table_len);
    if (longer) {
        HOLDS(read.refused == FLOE_REFUSED_OLD_RECORD && read.at == 0);
        nothing_told(read.guard);
    } else {
        HOLDS(read.refused == FLOE_ACCEPTED && read.guard.state == guard.state);
        HOLDS(read.guard.lost == guard.lost && read.guard.count == guard.count);
        for (size_t i = 0; i < FLOE_HELD; i++)
            HOLDS(read.guard.outcomes[i] == (i < FLOE_HELD - old_held || guard.outcomes[i]));
    }
    free(record);
}

/* Off and on again. Sometimes the buffer is a byte short first, and sometimes a record that was cut is read first. */
static floe_guard change(floe_guard guard, const uint8_t *set, size_t set_len, const uint8_t *table, size_t table_len) {
    size_t length = FLOE_RECORD_SIZE(set_len);
    uint8_t *record = block(length);
    if (below(4) == 0) {
        memset(record, 7, length);
        floe_written refused = floe_carry_write(guard, set, set_len, record, length - 1);
        HOLDS(refused.refused == FLOE_REFUSED_ROOM && refused.at == length && refused.length == 0);
        for (size_t i = 0; i < length; i++) HOLDS(record[i] == 7);
    }
    floe_written written = floe_carry_write(guard, set, set_len, record, length);
    HOLDS(written.refused == FLOE_ACCEPTED && written.at == 0 && written.length == length);
    if (below(4) == 0) {
        size_t left = below((unsigned)length);
        uint8_t *cut = block(left);
        memcpy(cut, record, left);
        floe_started refused = floe_carry_read(cut, left, table, table_len);
        HOLDS(refused.refused == FLOE_REFUSED_RECORD && refused.at == 0);
        nothing_told(refused.guard);
        free(cut);
    }
    floe_started read = floe_carry_read(record, length, table, table_len);
    HOLDS(read.refused == FLOE_ACCEPTED && read.at == 0);
    free(record);
    return read.guard;
}

static int starts, refusals, changes, changes_lost, heard[3];

/* One operation on a guard of the row, by the call on the row or by that on the guard alone. */
static void operate(floe_guard *row, size_t job, story *s, const floe_set *limits, const uint8_t *set, size_t set_len,
                    const uint8_t *table, size_t table_len) {
    uint64_t says = answer(s, limits);
    bool in_row = below(2) == 0;
    unsigned operation = below(16);
    if (s->count == LONGEST_STORY || (operation == 0 && below(3) == 0)) {
        floe_started started = floe_guard_start(table, table_len);
        nothing_told(started.guard);
        if (in_row) HOLDS(floe_row_start(row, JOBS, job, table, table_len).refused == FLOE_ACCEPTED);
        else row[job] = started.guard;
        s->count = s->kept = 0;
        starts++;
    } else if (operation < 4) {
        floe_asked asked = floe_guard_ask(row[job], table, table_len);
        HOLDS(asked.refused == FLOE_ACCEPTED && asked.answer == says);
        HOLDS(floe_row_ask(row, JOBS, job, table, table_len).answer == says);
        HOLDS(floe_row_ask(&row[job], 1, 0, table, table_len).answer == says);
        row[job] = asked.guard;
        heard[says]++;
    } else if (operation < 10) {
        bool miss = below(2) == 0 && (says != FLOE_PANIC || below(8) == 0);
        uint8_t told = (uint8_t)!miss;
        floe_guard alone = row[job];
        HOLDS(floe_row_tell(&alone, 1, 0, table, table_len, told).refused == FLOE_ACCEPTED);
        if (in_row) HOLDS(floe_row_tell(row, JOBS, job, table, table_len, told).refused == FLOE_ACCEPTED);
        else row[job] = floe_guard_tell(row[job], table, table_len, told).guard;
        tell(s, limits, told);
        holds_what_it_was_told(alone, s, table);
    } else if (operation < 11) {
        uint8_t none = (uint8_t)(2 + below(254));
        floe_told told = floe_guard_tell(row[job], table, table_len, none);
        HOLDS(told.refused == FLOE_REFUSED_OUTCOME && told.at == 0);
        HOLDS(floe_row_tell(row, JOBS, job, table, table_len, none).refused == FLOE_REFUSED_OUTCOME);
        row[job] = told.guard;
        refusals++;
    } else if (operation < 12) {
        HOLDS(floe_row_start(row, JOBS, job, table, table_len - 1).refused == FLOE_REFUSED_TABLE_LENGTH);
        HOLDS(floe_row_tell(row, JOBS, JOBS, table, table_len, FLOE_MISS).refused == FLOE_REFUSED_JOB);
        refusals++;
    } else {
        floe_guard guard = row[job];
        memset(&row[job], 0, sizeof row[job]);
        row[job] = change(guard, set, set_len, table, table_len);
        change_from_old(guard, limits, set, set_len, table, table_len);
        changes++;
        changes_lost += guard.lost;
    }
}

int main(void) {
    uint16_t *work = (uint16_t *)block(FLOE_WORK_ENTRIES * sizeof *work);
    for (int i = 0; i < SETS; i++) {
        size_t set_len = 6 + 3 * (size_t)sets[i].count;
        uint8_t *set = block(set_len);
        HOLDS(floe_write_set(sets[i], set, set_len).length == set_len);
        size_t table_len = floe_build(set, set_len, work, FLOE_WORK_ENTRIES, set, 0).at;
        uint8_t *table = block(table_len);
        HOLDS(floe_build(set, set_len, work, FLOE_WORK_ENTRIES, table, table_len).length == table_len);

        floe_guard *row = (floe_guard *)block(JOBS * sizeof *row);
        story stories[JOBS];
        for (size_t job = 0; job < JOBS; job++) {
            row[job] = floe_guard_new();
            nothing_told(row[job]);
            stories[job].count = stories[job].kept = 0;
        }
        for (int operation = 0; operation < OPERATIONS / SETS; operation++) {
            size_t job = below(JOBS);
            operate(row, job, &stories[job], &sets[i], set, set_len, table, table_len);
            for (job = 0; job < JOBS; job++) holds_what_it_was_told(row[job], &stories[job], table);
        }
        free(set);
        free(table);
        free(row);
    }
    free(work);
    HOLDS(starts > 100 && refusals > 1000 && changes > 2000 && changes_lost > 200);
    HOLDS(heard[FLOE_NORMAL] > 200 && heard[FLOE_PANIC] > 200 && heard[FLOE_LOST] > 200);
    printf("%d operations, and every guard is what it was told\n", OPERATIONS);
    return 0;
}
