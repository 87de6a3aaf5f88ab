/*
 * Calls every function of the header, answered and refused, and prints every field of every answer in the words of
 * Rust's Debug, so that the test can lay its own calls beside these. All that is lent lies in blocks of its exact size,
 * so that valgrind sees a read or a write outside, and a use of what was never written.
 */
#include <floelinnet.h>
#include <inttypes.h>
#include <stdio.h>
#include <stdlib.h>
#include <string.h>

static void *block(size_t bytes) {
    void *block = malloc(bytes);
    if (block == NULL) exit(1);
    return block;
}

static uint8_t *lent(const uint8_t *bytes, size_t length) {
    return (uint8_t *)memcpy(block(length), bytes, length);
}

static void field(const char *before, uint64_t value) {
    printf("%s%" PRIu64, before, value);
}

static void head(const char *name, uint64_t refused, uint64_t at) {
    printf("%s { refused: %" PRIu64 ", at: %" PRIu64, name, refused, at);
}

static void end(void) {
    puts(" }");
}

static void print_bytes(const uint8_t *bytes, size_t length) {
    for (size_t i = 0; i < length; i++) field(i == 0 ? "[" : ", ", bytes[i]);
    printf("]");
}

static void print_guard(const char *before, floe_guard guard) {
    printf("%sGuard { state: %u, lost: %s", before, guard.state, guard.lost ? "true" : "false");
    for (size_t i = 0; i < FLOE_HELD; i++)
        printf("%s%s", i == 0 ? ", outcomes: [" : ", ", guard.outcomes[i] ? "true" : "false");
    field("], count: ", guard.count);
    printf(" }");
}

static void print_row(const floe_guard *row, size_t count) {
    for (size_t i = 0; i < count; i++) print_guard(i == 0 ? "[" : ", ", row[i]);
    puts("]");
}

static void print_set_read(floe_set_read read) {
    head("SetRead", read.refused, read.at);
    field(", set: Set { count: ", read.set.count);
    for (size_t i = 0; i < 8; i++) {
        field(i == 0 ? ", limits: [Limit { kind: " : ", Limit { kind: ", read.set.limits[i].kind);
        field(", x: ", read.set.limits[i].x);
        field(", k: ", read.set.limits[i].k);
        printf(" }");
    }
    printf("] }");
    end();
}

static void print_written(floe_written written) {
    head("Written", written.refused, written.at);
    field(", length: ", written.length);
    end();
}

static void print_verdict(floe_verdict verdict) {
    head("Verdict", verdict.refused, verdict.at);
    field(", kept: ", verdict.kept);
    field(", job: ", verdict.job);
    field(", limit: ", verdict.limit);
    printf(", first: %" PRId64, verdict.first);
    end();
}

static void print_comparison(floe_comparison comparison) {
    head("Comparison", comparison.refused, comparison.at);
    field(", which: ", comparison.which);
    field(", covers: ", comparison.covers);
    field(", length: ", comparison.length);
    printf(", pattern: ");
    print_bytes(comparison.pattern, sizeof comparison.pattern);
    end();
}

static void print_built(floe_built built) {
    head("Built", built.refused, built.at);
    field(", length: ", built.length);
    end();
}

static void print_checked(floe_checked checked) {
    head("Checked", checked.refused, checked.at);
    field(", states: ", checked.states);
    end();
}

static void print_started(floe_started started) {
    head("Started", started.refused, started.at);
    print_guard(", guard: ", started.guard);
    end();
}

static void print_asked(floe_asked asked) {
    head("Asked", asked.refused, asked.at);
    field(", answer: ", asked.answer);
    print_guard(", guard: ", asked.guard);
    end();
}

static void print_told(floe_told told) {
    head("Told", told.refused, told.at);
    print_guard(", guard: ", told.guard);
    end();
}

static void print_done(floe_done done) {
    head("Done", done.refused, done.at);
    end();
}

static void print_row_asked(floe_row_asked asked) {
    head("RowAsked", asked.refused, asked.at);
    field(", answer: ", asked.answer);
    end();
}

static void print_opened(floe_log_opened opened) {
    head("LogOpened", opened.refused, opened.at);
    field(", place: ", opened.place);
    end();
}

static void print_read(floe_log_read read) {
    head("LogRead", read.refused, read.at);
    field(", answer: ", read.answer);
    field(", place: ", read.place);
    end();
}

/* Records: written into a block of the length that the writer asks for, read back, cut short and spoilt. The guard is lost
 * and was told all that it can count but one. */
static void records(floe_guard guard, const uint8_t *set, size_t set_len, const uint8_t *faulty, size_t faulty_len,
                    const uint8_t *table, size_t table_len, uint8_t *nothing) {
    floe_written needed = floe_carry_write(guard, set, set_len, nothing, 0);
    print_written(needed);
    size_t length = needed.at;
    uint8_t *record = (uint8_t *)block(length);
    guard.count = UINT64_MAX - 1;
    print_written(floe_carry_write(guard, set, set_len, record, length));
    print_bytes(record, length);
    puts("");
    print_written(floe_carry_write(guard, set, set_len, record, length - 1));
    print_written(floe_carry_write(guard, faulty, faulty_len, nothing, 0));
    print_bytes(record, length);
    puts("");

    floe_started read = floe_carry_read(record, length, table, table_len);
    print_started(read);
    floe_told told = floe_guard_tell(read.guard, table, table_len, 1);
    print_told(told);
    print_told(floe_guard_tell(told.guard, table, table_len, 1));
    print_told(floe_guard_tell(told.guard, table, table_len, 2));
    print_done(floe_row_tell(&told.guard, 1, 0, table, table_len, 0));
    print_row(&told.guard, 1);

    for (size_t left = 0; left < length; left++) {
        uint8_t *cut = lent(record, left);
        print_started(floe_carry_read(cut, left, table, table_len));
        free(cut);
    }
    print_started(floe_carry_read(record, length, table, table_len - 1));
    size_t outcomes = length - FLOE_HELD - 9;
    const size_t places[] = {4, 9, 11, outcomes, length - 1};
    for (size_t i = 0; i < sizeof places / sizeof *places; i++) {
        uint8_t *spoilt = lent(record, length);
        spoilt[places[i]] = 5;
        print_started(floe_carry_read(spoilt, length, table, table_len));
        print_started(floe_carry_read(spoilt, length, nothing, 0));
        free(spoilt);
    }
    memset(record + outcomes, 0, FLOE_HELD);
    print_started(floe_carry_read(record, length, table, table_len));
    free(record);
}

/* A record of version 1, which the library doesn't write: whole, cut short and spoilt. */
static void old_records(const uint8_t *set, size_t set_len, const uint8_t *table, size_t table_len) {
    const uint8_t tail[] = {1, 1, 1, 1, 1, 1, 1, 1, 0, 1, 0, 0, 0, 0, 0, 0, 0, 0, 9, 0};
    const uint8_t head[] = {0, 0, 0, (uint8_t)(1 + set_len + sizeof tail), 1};
    size_t length = FLOE_OLD_RECORD_SIZE(set_len);
    uint8_t *record = (uint8_t *)block(length);
    memcpy(record, head, sizeof head);
    memcpy(record + sizeof head, set, set_len);
    memcpy(record + sizeof head + set_len, tail, sizeof tail);
    print_started(floe_carry_read(record, length, table, table_len));
    for (size_t left = 0; left < length; left++) {
        uint8_t *cut = lent(record, left);
        print_started(floe_carry_read(cut, left, table, table_len));
        free(cut);
    }
    const struct { size_t place; uint8_t byte; } faults[] = {
        {4, 0}, {4, 2}, {4, 3}, {12, 13}, {12, 17}, {24, 2}, {length - 1, 2},
    };
    for (size_t i = 0; i < sizeof faults / sizeof *faults; i++) {
        uint8_t *spoilt = lent(record, length);
        spoilt[faults[i].place] = faults[i].byte;
        print_started(floe_carry_read(spoilt, length, table, table_len));
        free(spoilt);
    }
    free(record);
}

/* AnyHit(16,16): the window of a pattern that it loses early begins before the pattern. */
static const uint8_t all_of_16_bytes[] = {0, 0, 0, 5, 1, 1, 0, 16, 16};

/* Logs: written into a block of the length that the writer asks for, read to the end and past it, judged, and refused. */
static void logs(const uint8_t *set, size_t set_len, const uint8_t *faulty, size_t faulty_len, uint8_t *nothing) {
    const uint8_t night_bytes[] = {1, 1, 0, 1, 1, 1, 0, 1, 0, 0};
    const uint8_t no_night_bytes[] = {1, 2, 0};
    uint8_t *night = lent(night_bytes, sizeof night_bytes);
    uint8_t *no_night = lent(no_night_bytes, sizeof no_night_bytes);
    uint8_t *all_of_16 = lent(all_of_16_bytes, sizeof all_of_16_bytes);

    floe_written needed = floe_log_write(night, sizeof night_bytes, nothing, 0);
    print_written(needed);
    size_t length = needed.at;
    uint8_t *log = (uint8_t *)block(length);
    print_written(floe_log_write(night, sizeof night_bytes, log, length));
    print_bytes(log, length);
    puts("");
    print_written(floe_log_write(night, sizeof night_bytes, log, length - 1));
    print_written(floe_log_write(no_night, sizeof no_night_bytes, log, 0));
    print_bytes(log, length);
    puts("");
    uint8_t *empty = (uint8_t *)block(9);
    print_written(floe_log_write(nothing, 0, empty, 9));
    print_bytes(empty, 9);
    puts("");

    floe_log_opened opened = floe_log_open(log, length);
    print_opened(opened);
    floe_log_read read = floe_log_next(opened.place, log, length);
    for (; read.answer < FLOE_LOG_END; read = floe_log_next(read.place, log, length)) print_read(read);
    print_read(read);
    print_read(floe_log_next(read.place, log, length));
    print_read(floe_log_next(UINT64_MAX, log, length));
    print_read(floe_log_next(0, empty, 9));

    print_verdict(floe_log_judge(set, set_len, log, length));
    print_verdict(floe_log_judge(all_of_16, sizeof all_of_16_bytes, log, length));
    print_verdict(floe_log_judge(set, set_len, empty, 9));
    print_verdict(floe_log_judge(faulty, faulty_len, nothing, 0));

    uint8_t *spoilt = lent(log, length);
    spoilt[length - 1] |= 1;
    print_opened(floe_log_open(spoilt, length));
    print_read(floe_log_next(7, spoilt, length));
    print_verdict(floe_log_judge(set, set_len, spoilt, length));
    spoilt[4] = 2;
    print_opened(floe_log_open(spoilt, length));
    print_read(floe_log_next(7, spoilt, length));
    print_verdict(floe_log_judge(set, set_len, spoilt, length));
    print_opened(floe_log_open(nothing, 0));
    print_read(floe_log_next(UINT64_MAX, nothing, 0));

    free(night);
    free(no_night);
    free(all_of_16);
    free(log);
    free(empty);
    free(spoilt);
}

/* AnyHit(8,16), whose table is the largest of a limit alone: the bytes of it as one number. */
static void large_table(uint16_t *work, size_t entries, uint8_t *nothing) {
    const uint8_t half_of_16_bytes[] = {0, 0, 0, 5, 1, 1, 0, 8, 16};
    uint8_t *half_of_16 = lent(half_of_16_bytes, sizeof half_of_16_bytes);
    floe_built needed = floe_build(half_of_16, sizeof half_of_16_bytes, work, entries, nothing, 0);
    print_built(needed);
    size_t length = needed.at;
    uint8_t *table = (uint8_t *)block(length);
    print_built(floe_build(half_of_16, sizeof half_of_16_bytes, work, entries, table, length));
    print_checked(floe_check_table(table, length));
    uint64_t sum = 0;
    for (size_t i = 0; i < length; i++) sum = sum * 31 % 1000003 + table[i];
    field("", sum);
    puts("");
    free(half_of_16);
    free(table);
}

int main(void) {
    /* RowMiss(3) with AnyMiss(2,5); AnyMiss(3,7); and AnyHit(1,2) with a second limit of no kind. */
    const uint8_t set_bytes[] = {0, 0, 0, 8, 1, 2, 3, 3, 0, 2, 2, 5};
    const uint8_t other_bytes[] = {0, 0, 0, 5, 1, 1, 2, 3, 7};
    const uint8_t faulty_bytes[] = {0, 0, 0, 8, 1, 2, 0, 1, 2, 4, 0, 1};
    const uint8_t pattern_bytes[] = {1, 0, 1, 0, 0, 1};
    const uint8_t faulty_pattern_bytes[] = {1, 0, 1, 2};
    uint8_t *set = lent(set_bytes, sizeof set_bytes);
    uint8_t *other = lent(other_bytes, sizeof other_bytes);
    uint8_t *faulty = lent(faulty_bytes, sizeof faulty_bytes);
    uint8_t *all_of_16 = lent(all_of_16_bytes, sizeof all_of_16_bytes);
    uint8_t *pattern = lent(pattern_bytes, sizeof pattern_bytes);
    uint8_t *faulty_pattern = lent(faulty_pattern_bytes, sizeof faulty_pattern_bytes);
    uint8_t *nothing = lent(set_bytes, 0);

    print_set_read(floe_read_set(set, sizeof set_bytes));
    print_set_read(floe_read_set(faulty, sizeof faulty_bytes));
    print_set_read(floe_read_set(nothing, 0));

    floe_set_read read = floe_read_set(set, sizeof set_bytes);
    uint8_t *bytes = (uint8_t *)block(sizeof set_bytes);
    print_written(floe_write_set(read.set, bytes, sizeof set_bytes));
    print_bytes(bytes, sizeof set_bytes);
    puts("");
    print_written(floe_write_set(read.set, bytes, sizeof set_bytes - 1));
    print_written(floe_write_set(read.set, nothing, 0));
    read.set.limits[1].k = 17;
    print_written(floe_write_set(read.set, bytes, sizeof set_bytes));
    read.set.count = 9;
    print_written(floe_write_set(read.set, bytes, sizeof set_bytes));
    print_bytes(bytes, sizeof set_bytes);
    puts("");

    print_verdict(floe_judge(set, sizeof set_bytes, pattern, sizeof pattern_bytes));
    print_verdict(floe_judge(all_of_16, sizeof all_of_16_bytes, pattern, sizeof pattern_bytes));
    print_verdict(floe_judge(set, sizeof set_bytes, nothing, 0));
    print_verdict(floe_judge(set, sizeof set_bytes, faulty_pattern, sizeof faulty_pattern_bytes));
    print_verdict(floe_judge(faulty, sizeof faulty_bytes, pattern, sizeof pattern_bytes));

    print_comparison(floe_compare(set, sizeof set_bytes, other, sizeof other_bytes));
    print_comparison(floe_compare(set, sizeof set_bytes, set, sizeof set_bytes));
    print_comparison(floe_compare(set, sizeof set_bytes, faulty, sizeof faulty_bytes));

    const size_t entries = 131072;
    uint16_t *work = (uint16_t *)block(entries * sizeof *work);
    floe_built needed = floe_build(set, sizeof set_bytes, work, entries, nothing, 0);
    print_built(needed);
    print_built(floe_build(set, sizeof set_bytes, work, entries - 1, nothing, 0));
    size_t length = needed.at;
    uint8_t *table = (uint8_t *)block(length);
    print_built(floe_build(set, sizeof set_bytes, work, entries, table, length));
    print_bytes(table, length);
    puts("");
    large_table(work, entries, nothing);

    print_checked(floe_check_table(table, length));
    print_checked(floe_check_table(nothing, 0));
    uint8_t *faulty_table = lent(table, length);
    faulty_table[4] = 2;
    print_checked(floe_check_table(faulty_table, length));

    print_started(floe_guard_start(table, length - 1));
    floe_started started = floe_guard_start(table, length);
    print_started(started);
    floe_guard guard = started.guard;
    for (int misses = 0; misses < 3; misses++) {
        print_asked(floe_guard_ask(guard, table, length));
        print_asked(floe_guard_ask(guard, faulty_table, length));
        print_told(floe_guard_tell(guard, table, length, 2));
        floe_told told = floe_guard_tell(guard, table, length, 0);
        print_told(told);
        guard = told.guard;
    }
    print_asked(floe_guard_ask(guard, table, length));

    records(guard, set, sizeof set_bytes, faulty, sizeof faulty_bytes, table, length, nothing);
    old_records(set, sizeof set_bytes, table, length);

    const size_t count = 3;
    floe_guard *row = (floe_guard *)block(count * sizeof *row);
    for (size_t i = 0; i < count; i++) row[i] = floe_guard_new();
    print_row(row, count);
    for (int misses = 0; misses < 3; misses++) {
        print_row_asked(floe_row_ask(row, count, 1, table, length));
        print_row_asked(floe_row_ask(row, count, 1, faulty_table, length));
        print_row_asked(floe_row_ask(row, count, 3, table, length));
        print_done(floe_row_tell(row, count, 1, table, length, 2));
        print_done(floe_row_tell(row, count, 3, table, length, 0));
        print_done(floe_row_tell(row, count, 1, table, length, 0));
        print_row(row, count);
    }
    print_row_asked(floe_row_ask(row, count, 1, table, length));
    print_done(floe_row_start(row, count, 1, faulty_table, length));
    print_done(floe_row_start(row, count, 3, table, length));
    print_row(row, count);
    print_done(floe_row_start(row, count, 1, table, length));
    print_row(row, count);

    logs(set, sizeof set_bytes, faulty, sizeof faulty_bytes, nothing);

    free(set);
    free(other);
    free(faulty);
    free(all_of_16);
    free(pattern);
    free(faulty_pattern);
    free(nothing);
    free(bytes);
    free(work);
    free(table);
    free(faulty_table);
    free(row);
    return 0;
}
