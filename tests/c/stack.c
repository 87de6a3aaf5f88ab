/*
 * How much stack each function uses: it is called on a stack that was painted before, and what is no longer painted was
 * used. Counted from a call that does nothing, with the record of the answer, the most of several calls: one that is
 * answered and one that is refused, of verdicts one that is lost besides, and of records one of version 1. Linked with
 * -z now, so that the dynamic linker's own stack isn't counted.
 */
#define _XOPEN_SOURCE 700
#include <floelinnet.h>
#include <stdio.h>
#include <ucontext.h>

enum { STACK = 1 << 16, PAINT = 0xA5 };

static unsigned char stack[STACK];
static ucontext_t outside, inside;

static const floe_set all_kinds = {8, {{FLOE_ANY_HIT, 3, 9}, {FLOE_ROW_HIT, 2, 9}, {FLOE_ANY_MISS, 7, 12},
                                       {FLOE_ROW_MISS, 4, 0}, {FLOE_ANY_HIT, 2, 10}, {FLOE_ROW_HIT, 1, 5},
                                       {FLOE_ANY_MISS, 12, 16}, {FLOE_ROW_MISS, 5, 0}}};
static uint8_t set[FLOE_LONGEST_SET], other[] = {0, 0, 0, 5, 1, 1, FLOE_ANY_HIT, 8, 16}, table[FLOE_LONGEST_TABLE];
static uint16_t work[FLOE_WORK_ENTRIES];
static size_t set_len, table_len;
static const uint8_t pattern[] = {0, 0, 1, 0, 1, 1, 0, 0, 1, 0, 1, 1, 1, 1, 0, 1, 0, 1, 1, 0};
/* By RowHit(2,9), whose window is looked for in the history. */
static const uint8_t lost[] = {0, 0, 1, 0, 1, 1, 0, 0, 1, 0, 1, 1, 1, 1, 0, 1, 0, 1, 1, 0, 0, 0, 1, 0, 0, 0};
static floe_guard row[FLOE_MOST_GUARDS], guard;
static uint8_t night[FLOE_LOG_SIZE(sizeof pattern)], spare[FLOE_LOG_SIZE(sizeof pattern)];
static uint8_t record[FLOE_LONGEST_RECORD], unwalked[FLOE_LONGEST_RECORD], spare_record[FLOE_LONGEST_RECORD];
static size_t record_len;
/* AnyHit(1,2) with nothing told, of version 1; on any table of a set its hits can be walked. */
static const uint8_t old_record[FLOE_OLD_RECORD_SIZE(9)] = {0, 0, 0, 30, 1, 0, 0, 0, 5, 1, 1, 0, 1, 2, 1, 1, 1, 1, 1, 1,
                                                            1, 1, 1, 1, 1};
static uint8_t lost_night[FLOE_LOG_SIZE(sizeof lost)];

/* Each call of a function is one more of its name; answers are used, so that the calls stay. */
static volatile uint64_t used_up;
#define CALL(name, number, call) \
    static void name##_##number(void) { used_up = (call).refused; }

CALL(floe_read_set, 0, floe_read_set(set, set_len))
CALL(floe_read_set, 1, floe_read_set(set, set_len - 1))
CALL(floe_write_set, 0, floe_write_set(all_kinds, set, sizeof set))
CALL(floe_write_set, 1, floe_write_set(all_kinds, set, 0))
CALL(floe_judge, 0, floe_judge(set, set_len, pattern, sizeof pattern))
CALL(floe_judge, 1, floe_judge(set, set_len, set, set_len))
CALL(floe_judge, 2, floe_judge(set, set_len, lost, sizeof lost))
CALL(floe_compare, 0, floe_compare(set, set_len, other, sizeof other))
CALL(floe_compare, 1, floe_compare(other, sizeof other, other, sizeof other))
CALL(floe_build, 0, floe_build(set, set_len, work, FLOE_WORK_ENTRIES, table, sizeof table))
CALL(floe_build, 1, floe_build(other, sizeof other, work, FLOE_WORK_ENTRIES, table, 0))
CALL(floe_check_table, 0, floe_check_table(table, table_len))
CALL(floe_check_table, 1, floe_check_table(table, table_len - 1))
static void floe_guard_new_0(void) { used_up = floe_guard_new().count; }
CALL(floe_guard_start, 0, floe_guard_start(table, table_len))
CALL(floe_guard_start, 1, floe_guard_start(table, table_len - 1))
CALL(floe_guard_ask, 0, floe_guard_ask(guard, table, table_len))
CALL(floe_guard_ask, 1, floe_guard_ask(guard, table, table_len - 1))
CALL(floe_guard_tell, 0, floe_guard_tell(guard, table, table_len, FLOE_MISS))
CALL(floe_guard_tell, 1, floe_guard_tell(guard, table, table_len, 2))
CALL(floe_row_start, 0, floe_row_start(row, FLOE_MOST_GUARDS, 3, table, table_len))
CALL(floe_row_start, 1, floe_row_start(row, FLOE_MOST_GUARDS, 16, table, table_len))
CALL(floe_row_ask, 0, floe_row_ask(row, FLOE_MOST_GUARDS, 3, table, table_len))
CALL(floe_row_ask, 1, floe_row_ask(row, FLOE_MOST_GUARDS, 16, table, table_len))
CALL(floe_row_tell, 0, floe_row_tell(row, FLOE_MOST_GUARDS, 3, table, table_len, FLOE_MISS))
CALL(floe_row_tell, 1, floe_row_tell(row, FLOE_MOST_GUARDS, 3, table, table_len, 2))
CALL(floe_carry_write, 0, floe_carry_write(guard, set, set_len, spare_record, sizeof spare_record))
CALL(floe_carry_write, 1, floe_carry_write(guard, set, set_len, spare_record, 0))
CALL(floe_carry_read, 0, floe_carry_read(record, record_len, table, table_len))
CALL(floe_carry_read, 1, floe_carry_read(unwalked, record_len, table, table_len))
CALL(floe_carry_read, 2, floe_carry_read(old_record, sizeof old_record, table, table_len))
CALL(floe_log_write, 0, floe_log_write(pattern, sizeof pattern, spare, sizeof spare))
CALL(floe_log_write, 1, floe_log_write(pattern, sizeof pattern, spare, 0))
CALL(floe_log_open, 0, floe_log_open(night, sizeof night))
CALL(floe_log_open, 1, floe_log_open(night, sizeof night - 1))
CALL(floe_log_next, 0, floe_log_next(sizeof pattern - 1, night, sizeof night))
CALL(floe_log_next, 1, floe_log_next(0, night, sizeof night - 1))
CALL(floe_log_judge, 0, floe_log_judge(set, set_len, night, sizeof night))
CALL(floe_log_judge, 1, floe_log_judge(set, set_len, night, sizeof night - 1))
CALL(floe_log_judge, 2, floe_log_judge(set, set_len, lost_night, sizeof lost_night))

static void nothing(void) {
    used_up = 0;
}

static size_t used(void (*call)(void)) {
    for (size_t i = 0; i < sizeof stack; i++) stack[i] = PAINT;
    getcontext(&inside);
    inside.uc_stack.ss_sp = stack;
    inside.uc_stack.ss_size = sizeof stack;
    inside.uc_link = &outside;
    makecontext(&inside, call, 0);
    swapcontext(&outside, &inside);
    size_t free = 0;
    while (stack[free] == PAINT) free++;
    return sizeof stack - free;
}

static size_t more(size_t a, size_t b) {
    return a > b ? a : b;
}

static void say(const char *name, size_t most) {
    printf("%s %zu\n", name, most - used(nothing));
}

#define SAY(name) say(#name, more(used(name##_0), used(name##_1)))
#define SAY_THREE(name) say(#name, more(more(used(name##_0), used(name##_1)), used(name##_2)))

int main(void) {
    set_len = floe_write_set(all_kinds, set, sizeof set).length;
    table_len = floe_build(set, set_len, work, FLOE_WORK_ENTRIES, table, sizeof table).length;
    size_t night_len = floe_log_write(pattern, sizeof pattern, night, sizeof night).length;
    size_t lost_len = floe_log_write(lost, sizeof lost, lost_night, sizeof lost_night).length;
    guard = floe_guard_new();
    for (size_t i = 0; i < FLOE_MOST_GUARDS; i++) row[i] = guard;
    for (size_t i = 0; i < sizeof pattern; i++) guard = floe_guard_tell(guard, table, table_len, pattern[i]).guard;
    record_len = floe_carry_write(guard, set, set_len, record, sizeof record).length;
    if (floe_carry_read(record, record_len, table, table_len).refused != FLOE_ACCEPTED) return 1;
    for (size_t i = 0; i < record_len; i++) unwalked[i] = i < 5 + set_len || i >= 5 + set_len + FLOE_HELD ? record[i] : 0;
    if (floe_carry_read(unwalked, record_len, table, table_len).refused != FLOE_REFUSED_WALK) return 1;
    if (floe_carry_read(old_record, sizeof old_record, table, table_len).refused != FLOE_ACCEPTED) return 1;
    if (table_len == 0 || night_len != sizeof night || lost_len != sizeof lost_night) return 1;
    if (floe_judge(set, set_len, pattern, sizeof pattern).kept != 1) return 1;
    floe_verdict verdict = floe_judge(set, set_len, lost, sizeof lost);
    if (verdict.job != sizeof lost || all_kinds.limits[verdict.limit].kind != FLOE_ROW_HIT) return 1;
    SAY(floe_read_set);
    SAY(floe_write_set);
    SAY_THREE(floe_judge);
    SAY(floe_compare);
    SAY(floe_build);
    SAY(floe_check_table);
    say("floe_guard_new", used(floe_guard_new_0));
    SAY(floe_guard_start);
    SAY(floe_guard_ask);
    SAY(floe_guard_tell);
    SAY(floe_row_start);
    SAY(floe_row_ask);
    SAY(floe_row_tell);
    SAY(floe_carry_write);
    SAY_THREE(floe_carry_read);
    SAY(floe_log_write);
    SAY(floe_log_open);
    SAY(floe_log_next);
    SAY_THREE(floe_log_judge);
    return 0;
}
