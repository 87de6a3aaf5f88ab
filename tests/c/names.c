/*
 * Ties the header's names to the library: each constant to the calls that it is for, one at the bound and one past it,
 * each kind to patterns that it keeps and doesn't, each answer and each refusal to a call that gives it. Says the
 * constants that Rust has too, for the test to compare; among them FLOE_REFUSED_PATTERN_LENGTH, which no call with
 * memory that is there can give.
 */
#include <floelinnet.h>
#include <stdio.h>
#include <stdlib.h>
#include <string.h>

#define SAY(name) printf(#name " %d\n", (int)(name))
#define HOLDS(fact) ((fact) ? (void)0 : fail(__LINE__, #fact))

static void fail(int line, const char *fact) {
    printf("line %d: %s\n", line, fact);
    exit(1);
}

#if FLOE_LOG_SIZE(8) != 10 || FLOE_LOG_SIZE(9) != 11
#error "FLOE_LOG_SIZE is a number that the preprocessor can compare"
#endif

#if FLOE_RECORD_SIZE(FLOE_LONGEST_SET) != FLOE_LONGEST_RECORD || FLOE_HELD != FLOE_LONGEST_WINDOW - 1
#error "FLOE_RECORD_SIZE is a number that the preprocessor can compare"
#endif

#if FLOE_OLD_RECORD_SIZE(9) != 34 || FLOE_OLD_RECORD_SIZE(FLOE_LONGEST_SET) > FLOE_LONGEST_RECORD
#error "FLOE_OLD_RECORD_SIZE is a number that the preprocessor can compare"
#endif

static uint16_t work[FLOE_WORK_ENTRIES];
static uint8_t table[FLOE_LONGEST_TABLE + 4];

/* What judging an empty pattern under a set of one limit is refused by. */
static uint64_t refused(floe_limit limit) {
    const uint8_t set[] = {0, 0, 0, 5, 1, 1, limit.kind, limit.x, limit.k};
    return floe_judge(set, sizeof set, set, 0).refused;
}

static floe_limit limit(int kind, int x, int k) {
    floe_limit limit = {(uint8_t)kind, (uint8_t)x, (uint8_t)k};
    return limit;
}

/* A table of n states, all of which lead to state 0. */
static size_t table_of(size_t n) {
    size_t after = 3 + 4 * n;
    const uint8_t head[] = {0, (uint8_t)(after >> 16), (uint8_t)(after >> 8), (uint8_t)after, 1, (uint8_t)(n >> 8),
                            (uint8_t)n};
    memset(table, 0, sizeof table);
    memcpy(table, head, sizeof head);
    return 4 + after;
}

/* Each kind by what it means: with these numbers the three patterns tell it from every other kind. */
static void kinds(void) {
    const struct { uint8_t kind, x, k; bool two, three, apart; } kinds[] = {
        {FLOE_ANY_HIT, 2, 5, true, true, true},
        {FLOE_ROW_HIT, 2, 5, true, false, false},
        {FLOE_ANY_MISS, 3, 5, true, true, true},
        {FLOE_ROW_MISS, 2, 0, false, false, true},
    };
    const uint8_t misses[] = {FLOE_MISS, FLOE_MISS, FLOE_MISS}, apart[] = {FLOE_MISS, FLOE_HIT, FLOE_MISS};
    for (size_t i = 0; i < sizeof kinds / sizeof *kinds; i++) {
        const uint8_t set[] = {0, 0, 0, 5, 1, 1, kinds[i].kind, kinds[i].x, kinds[i].k};
        HOLDS(floe_judge(set, sizeof set, misses, 2).refused == FLOE_ACCEPTED);
        HOLDS(floe_judge(set, sizeof set, misses, 2).kept == kinds[i].two);
        HOLDS(floe_judge(set, sizeof set, misses, 3).kept == kinds[i].three);
        HOLDS(floe_judge(set, sizeof set, apart, 3).kept == kinds[i].apart);
    }
    HOLDS(refused(limit(FLOE_ROW_MISS + 1, 0, 1)) == FLOE_REFUSED_LIMIT_KIND);
    HOLDS(refused(limit(FLOE_ANY_HIT, 0, 2)) == FLOE_REFUSED_LIMITS_NOTHING);
    HOLDS(refused(limit(FLOE_ROW_HIT, 0, 2)) == FLOE_REFUSED_LIMITS_NOTHING);
    HOLDS(refused(limit(FLOE_ANY_MISS, 2, 2)) == FLOE_REFUSED_LIMITS_NOTHING);
}

/* Where to look, below job 1 too: a first job is a signed number, and 0 alone doesn't say that nothing is lost. */
static void first_jobs(void) {
    const struct { uint8_t kind, x, k, misses; uint64_t job; int64_t first; } lost[] = {
        {FLOE_ROW_MISS, 2, 0, 2, 2, 1},
        {FLOE_ROW_HIT, 2, 5, 3, 3, 0},
        {FLOE_ANY_MISS, 2, 5, 3, 3, -1},
        {FLOE_ANY_HIT, 12, 12, 1, 1, -10},
        {FLOE_ANY_HIT, FLOE_LONGEST_WINDOW, FLOE_LONGEST_WINDOW, 1, 1, 2 - FLOE_LONGEST_WINDOW},
    };
    const uint8_t misses[] = {FLOE_MISS, FLOE_MISS, FLOE_MISS};
    for (size_t i = 0; i < sizeof lost / sizeof *lost; i++) {
        const uint8_t set[] = {0, 0, 0, 5, 1, 1, lost[i].kind, lost[i].x, lost[i].k};
        const uint8_t log[] = {0, 0, 0, 6, 1, 0, 0, 0, lost[i].misses, 0};
        floe_verdict verdict = floe_judge(set, sizeof set, misses, lost[i].misses);
        HOLDS(verdict.refused == FLOE_ACCEPTED && verdict.kept == 0 && verdict.job == lost[i].job);
        HOLDS(verdict.first == lost[i].first && (verdict.first < 0) == (lost[i].first < 0));
        HOLDS(floe_log_judge(set, sizeof set, log, sizeof log).first == verdict.first);
        verdict = floe_judge(set, sizeof set, misses, 0);
        HOLDS(verdict.kept == 1 && verdict.first == 0);
        verdict = floe_judge(set, sizeof set - 1, misses, lost[i].misses);
        HOLDS(verdict.refused == FLOE_REFUSED_SET_LENGTH && verdict.kept == 0 && verdict.first == 0);
    }
}

static void sizes(void) {
    uint8_t set[FLOE_LONGEST_SET + 3];
    floe_set most = {FLOE_MOST_LIMITS, {{FLOE_ROW_MISS, 2, 0}}};
    for (size_t i = 0; i < FLOE_MOST_LIMITS; i++) most.limits[i] = most.limits[0];
    HOLDS(floe_write_set(most, set, FLOE_LONGEST_SET).length == FLOE_LONGEST_SET);
    HOLDS(floe_write_set(most, set, FLOE_LONGEST_SET - 1).at == FLOE_LONGEST_SET);
    HOLDS(floe_build(set, FLOE_LONGEST_SET, work, FLOE_WORK_ENTRIES, table, sizeof table).refused == FLOE_ACCEPTED);
    HOLDS(floe_build(set, FLOE_LONGEST_SET, work, FLOE_WORK_ENTRIES - 1, table, sizeof table).refused
          == FLOE_REFUSED_WORK_LENGTH);
    most.count = FLOE_MOST_LIMITS + 1;
    HOLDS(floe_write_set(most, set, sizeof set).refused == FLOE_REFUSED_LIMIT_COUNT);

    HOLDS(table_of(32768) == FLOE_LONGEST_TABLE);
    HOLDS(floe_check_table(table, FLOE_LONGEST_TABLE).states == 32768);
    HOLDS(floe_check_table(table, table_of(32769)).refused == FLOE_REFUSED_STATES);
    /* All entries of the work area, and no more, come back as zeros. */
    static uint16_t used[FLOE_WORK_ENTRIES + 1];
    memset(used, 7, sizeof used);
    HOLDS(floe_build(set, FLOE_LONGEST_SET, used, FLOE_WORK_ENTRIES + 1, table, sizeof table).refused == FLOE_ACCEPTED);
    for (size_t i = 0; i < FLOE_WORK_ENTRIES; i++) HOLDS(used[i] == 0);
    HOLDS(used[FLOE_WORK_ENTRIES] == 0x0707);

    floe_guard row[FLOE_MOST_GUARDS + 1];
    for (size_t i = 0; i <= FLOE_MOST_GUARDS; i++) row[i] = floe_guard_new();
    size_t length = table_of(1);
    HOLDS(floe_row_start(row, FLOE_MOST_GUARDS, FLOE_MOST_GUARDS - 1, table, length).refused == FLOE_ACCEPTED);
    HOLDS(floe_row_start(row, FLOE_MOST_GUARDS, FLOE_MOST_GUARDS, table, length).refused == FLOE_REFUSED_JOB);
    HOLDS(floe_row_start(row, FLOE_MOST_GUARDS + 1, 0, table, length).refused == FLOE_REFUSED_JOB);
}

/* AnyHit(1,2): after a miss a hit. */
static void answers(void) {
    const uint8_t one_of_two[] = {0, 0, 0, 11, 1, 0, 2, 0, 1, 0, 0, 0xFF, 0xFF, 0, 0};
    floe_guard guard = floe_guard_start(one_of_two, sizeof one_of_two).guard;
    HOLDS(floe_guard_ask(guard, one_of_two, sizeof one_of_two).answer == FLOE_NORMAL);
    HOLDS(floe_guard_ask(guard, one_of_two, 14).answer == FLOE_REFUSED);
    guard = floe_guard_tell(guard, one_of_two, sizeof one_of_two, FLOE_MISS).guard;
    HOLDS(floe_guard_ask(guard, one_of_two, sizeof one_of_two).answer == FLOE_PANIC);
    HOLDS(floe_row_ask(&guard, 1, 0, one_of_two, sizeof one_of_two).answer == FLOE_PANIC);
    guard = floe_guard_tell(guard, one_of_two, sizeof one_of_two, FLOE_MISS).guard;
    HOLDS(floe_guard_ask(guard, one_of_two, sizeof one_of_two).answer == FLOE_LOST);
    HOLDS(floe_row_ask(&guard, 1, 1, one_of_two, sizeof one_of_two).answer == FLOE_REFUSED);
}

/* FLOE_LOG_SIZE, with n of any type and looked at once, and what a reader answers. */
static void logs(void) {
    const uint8_t pattern[80] = {FLOE_MISS, FLOE_HIT};
    uint8_t log[FLOE_LOG_SIZE(sizeof pattern)];
    for (size_t n = 0; n <= sizeof pattern; n++) {
        HOLDS(floe_log_write(pattern, n, log, FLOE_LOG_SIZE(n)).length == FLOE_LOG_SIZE(n));
        HOLDS(floe_log_write(pattern, n, log, FLOE_LOG_SIZE(n) - 1).refused == FLOE_REFUSED_ROOM);
        HOLDS(floe_log_write(pattern, n, log, 0).at == FLOE_LOG_SIZE(n));
    }
    int once = 8;
    HOLDS(FLOE_LOG_SIZE(once++) == 10 && once == 9);
    HOLDS(FLOE_LOG_SIZE((uint8_t)255) == 9 + 32 && FLOE_LOG_SIZE(INT32_MAX) == 9 + (UINT64_C(1) << 28));
    HOLDS(FLOE_LOG_SIZE(UINT32_MAX) == 9 + (UINT64_C(1) << 29) && FLOE_LOG_SIZE(1 | 8) == 11);

    size_t length = floe_log_write(pattern, 2, log, sizeof log).length;
    HOLDS(floe_log_open(log, length).refused == FLOE_ACCEPTED);
    HOLDS(floe_log_next(0, log, length).answer == FLOE_LOG_MISS);
    HOLDS(floe_log_next(1, log, length).answer == FLOE_LOG_HIT);
    HOLDS(floe_log_next(2, log, length).answer == FLOE_LOG_END);
    HOLDS(floe_log_next(0, log, length - 1).answer == FLOE_LOG_REFUSED);
    HOLDS(FLOE_LOG_MISS == (int)FLOE_MISS && FLOE_LOG_HIT == (int)FLOE_HIT);
    HOLDS(floe_log_open(log, length - 1).refused == FLOE_REFUSED_LOG);
    log[length - 1] |= 1;
    HOLDS(floe_log_open(log, length).refused == FLOE_REFUSED_UNUSED_BITS);
}

/* FLOE_HELD, FLOE_LONGEST_WINDOW and FLOE_RECORD_SIZE, with a length of any type and looked at once, and what a record is
 * refused by. The guard is in panic by what it holds in the first place: one outcome fewer, and it would not be. */
static void records(void) {
    HOLDS(refused(limit(FLOE_ANY_HIT, 1, FLOE_LONGEST_WINDOW)) == FLOE_ACCEPTED);
    HOLDS(refused(limit(FLOE_ANY_HIT, 1, FLOE_LONGEST_WINDOW + 1)) == FLOE_REFUSED_LIMIT_K);
    const uint8_t set[] = {0, 0, 0, 5, 1, 1, FLOE_ANY_HIT, 1, FLOE_LONGEST_WINDOW};
    size_t length = floe_build(set, sizeof set, work, FLOE_WORK_ENTRIES, table, sizeof table).length;
    floe_guard guard = floe_guard_new();
    HOLDS(sizeof guard.outcomes == FLOE_HELD);
    for (size_t i = 0; i < FLOE_HELD; i++) {
        HOLDS(guard.outcomes[0]);
        HOLDS(floe_guard_ask(guard, table, length).answer == FLOE_NORMAL);
        guard = floe_guard_tell(guard, table, length, FLOE_MISS).guard;
        HOLDS(!guard.outcomes[FLOE_HELD - 1] && guard.count == i + 1);
    }
    HOLDS(!guard.outcomes[0] && floe_guard_ask(guard, table, length).answer == FLOE_PANIC);

    uint8_t record[FLOE_LONGEST_RECORD];
    const uint64_t record_len = FLOE_RECORD_SIZE(sizeof set);
    HOLDS(floe_carry_write(guard, set, sizeof set, record, record_len).length == record_len);
    HOLDS(floe_carry_write(guard, set, sizeof set, record, record_len - 1).refused == FLOE_REFUSED_ROOM);
    HOLDS(floe_carry_write(guard, set, sizeof set, record, 0).at == record_len);
    HOLDS(floe_carry_read(record, record_len, table, length).guard.state == guard.state);
    HOLDS(memcmp(record + 5, set, sizeof set) == 0);
    int once = 8;
    HOLDS(FLOE_RECORD_SIZE(once++) == 8 + FLOE_RECORD_SIZE(0) && once == 9);
    HOLDS(FLOE_RECORD_SIZE((uint8_t)255) == 255 + FLOE_RECORD_SIZE(0) && FLOE_RECORD_SIZE(1 | 8) == FLOE_RECORD_SIZE(9));
    HOLDS(FLOE_RECORD_SIZE(UINT32_MAX) - FLOE_RECORD_SIZE(0) == UINT32_MAX);

    HOLDS(floe_carry_read(record, FLOE_RECORD_SIZE(0) - 1, table, length).refused == FLOE_REFUSED_RECORD);
    HOLDS(floe_carry_read(record, record_len - 1, table, length).refused == FLOE_REFUSED_RECORD);
    const uint8_t no_set[FLOE_RECORD_SIZE(0)] = {0, 0, 0, FLOE_RECORD_SIZE(0) - 4, 2};
    HOLDS(floe_carry_read(no_set, sizeof no_set, table, length).refused == FLOE_REFUSED_SET_LENGTH);
    record[record_len - 1] = 2;
    HOLDS(floe_carry_read(record, record_len, table, length).refused == FLOE_REFUSED_LOST_BYTE);
    record[5 + sizeof set + FLOE_HELD - 1] = 2;
    HOLDS(floe_carry_read(record, record_len, table, length).refused == FLOE_REFUSED_OUTCOME);
    HOLDS(floe_carry_read(record, record_len, table, length).at == FLOE_HELD - 1);
    record[5 + sizeof set + FLOE_HELD - 1] = FLOE_MISS;
    record[record_len - 1] = 1;
    const uint8_t one_of_two[] = {0, 0, 0, 11, 1, 0, 2, 0, 1, 0, 0, 0xFF, 0xFF, 0, 0};
    HOLDS(floe_carry_read(record, record_len, one_of_two, sizeof one_of_two).refused == FLOE_REFUSED_WALK);
    HOLDS(floe_carry_read(record, record_len, table, length).guard.lost);
}

/* FLOE_OLD_RECORD_SIZE, and FLOE_REFUSED_OLD_RECORD for the shortest window that is too long for such a record. */
static void old_records(void) {
    uint8_t record[FLOE_OLD_RECORD_SIZE(9)] = {0, 0, 0, sizeof record - 4, 1, 0, 0, 0, 5, 1, 1, FLOE_ANY_HIT, 1, 12};
    memset(record + 14, FLOE_HIT, sizeof record - 14 - 9);
    size_t length = table_of(1);
    HOLDS(floe_carry_read(record, sizeof record, table, length).refused == FLOE_ACCEPTED);
    HOLDS(floe_carry_read(record, sizeof record - 1, table, length).refused == FLOE_REFUSED_RECORD);
    record[13] = 13;
    HOLDS(floe_carry_read(record, sizeof record, table, length).refused == FLOE_REFUSED_OLD_RECORD);
    const uint8_t no_set[FLOE_OLD_RECORD_SIZE(0)] = {0, 0, 0, FLOE_OLD_RECORD_SIZE(0) - 4, 1};
    HOLDS(floe_carry_read(no_set, sizeof no_set, table, length).refused == FLOE_REFUSED_SET_LENGTH);
    const uint8_t shorter[FLOE_OLD_RECORD_SIZE(0) - 1] = {0, 0, 0, FLOE_OLD_RECORD_SIZE(0) - 5, 1};
    HOLDS(floe_carry_read(shorter, sizeof shorter, table, length).refused == FLOE_REFUSED_RECORD);
    int once = 8;
    HOLDS(FLOE_OLD_RECORD_SIZE(once++) == 8 + FLOE_OLD_RECORD_SIZE(0) && once == 9);
}

static void refusals(void) {
    const uint8_t version_2[] = {0, 0, 0, 5, 2, 1, FLOE_ANY_HIT, 1, 2}, two_limits[] = {0, 0, 0, 5, 1, 2, 0, 1, 2};
    const uint8_t none[] = {0, 0, 0, 2, 1, 0}, one_of_two[] = {0, 0, 0, 5, 1, 1, FLOE_ANY_HIT, 1, 2}, no_outcome[] = {2};
    floe_guard guard = floe_guard_new();
    HOLDS(floe_read_set(one_of_two, sizeof one_of_two).refused == FLOE_ACCEPTED);
    HOLDS(floe_read_set(one_of_two, 8).refused == FLOE_REFUSED_SET_LENGTH);
    HOLDS(floe_read_set(version_2, sizeof version_2).refused == FLOE_REFUSED_SET_VERSION);
    HOLDS(floe_read_set(none, sizeof none).refused == FLOE_REFUSED_LIMIT_COUNT);
    HOLDS(floe_read_set(two_limits, sizeof two_limits).refused == FLOE_REFUSED_LIMITS_LENGTH);
    HOLDS(refused(limit(FLOE_ANY_HIT, 1, FLOE_LONGEST_WINDOW + 1)) == FLOE_REFUSED_LIMIT_K);
    HOLDS(refused(limit(FLOE_ANY_HIT, 3, 2)) == FLOE_REFUSED_LIMIT_X);
    HOLDS(refused(limit(FLOE_ROW_MISS, 0, 0)) == FLOE_REFUSED_LIMIT_X);
    HOLDS(refused(limit(FLOE_ROW_MISS, 1, 0)) == FLOE_ACCEPTED);
    HOLDS(refused(limit(FLOE_ROW_MISS, FLOE_LONGEST_WINDOW, 0)) == FLOE_ACCEPTED);
    HOLDS(refused(limit(FLOE_ROW_MISS, FLOE_LONGEST_WINDOW + 1, 0)) == FLOE_REFUSED_LIMIT_X);
    HOLDS(floe_build(one_of_two, sizeof one_of_two, work, FLOE_WORK_ENTRIES, table, 0).refused == FLOE_REFUSED_ROOM);
    size_t length = table_of(1);
    HOLDS(floe_check_table(table, length - 1).refused == FLOE_REFUSED_TABLE_LENGTH);
    HOLDS(floe_guard_tell(guard, table, length, 2).refused == FLOE_REFUSED_OUTCOME);
    HOLDS(floe_judge(one_of_two, sizeof one_of_two, no_outcome, 1).refused == FLOE_REFUSED_OUTCOME);
    guard.count = UINT64_MAX;
    HOLDS(floe_guard_tell(guard, table, length, FLOE_HIT).refused == FLOE_REFUSED_COUNT);
    HOLDS(floe_guard_tell(guard, table, length, 2).refused == FLOE_REFUSED_OUTCOME);
    guard.lost = true;
    HOLDS(floe_guard_tell(guard, table, length, FLOE_HIT).refused == FLOE_REFUSED_COUNT);
    guard.count--;
    HOLDS(floe_guard_tell(guard, table, length, FLOE_HIT).guard.count == UINT64_MAX);
    table[4] = 2;
    HOLDS(floe_check_table(table, length).refused == FLOE_REFUSED_TABLE_VERSION);
}

int main(void) {
    SAY(FLOE_MOST_LIMITS);
    SAY(FLOE_LONGEST_SET);
    SAY(FLOE_WORK_ENTRIES);
    SAY(FLOE_LONGEST_TABLE);
    SAY(FLOE_MOST_GUARDS);
    SAY(FLOE_LONGEST_WINDOW);
    SAY(FLOE_HELD);
    SAY(FLOE_RECORD_SIZE(0));
    SAY(FLOE_RECORD_SIZE(9));
    SAY(FLOE_LONGEST_RECORD);
    SAY(FLOE_OLD_RECORD_SIZE(0));
    SAY(FLOE_OLD_RECORD_SIZE(9));
    SAY(FLOE_MISS);
    SAY(FLOE_HIT);
    SAY(FLOE_LOG_SIZE(0));
    SAY(FLOE_LOG_SIZE(86401));
    SAY(FLOE_REFUSED_PATTERN_LENGTH);
    kinds();
    first_jobs();
    sizes();
    answers();
    logs();
    records();
    old_records();
    refusals();
    puts("every name is as the library has it");
    return 0;
}
