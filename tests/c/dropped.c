/* Each function called as a statement, its answer dropped: a compiler that can say so has to, nineteen times. */
#include <floelinnet.h>

void drop_everything(floe_set set, floe_guard guard, floe_guard *row, uint16_t *work, uint8_t *bytes);

void drop_everything(floe_set set, floe_guard guard, floe_guard *row, uint16_t *work, uint8_t *bytes) {
    floe_read_set(bytes, 9);
    floe_write_set(set, bytes, 9);
    floe_judge(bytes, 9, bytes, 9);
    floe_compare(bytes, 9, bytes, 9);
    floe_build(bytes, 9, work, 9, bytes, 9);
    floe_check_table(bytes, 9);
    floe_guard_new();
    floe_guard_start(bytes, 9);
    floe_guard_ask(guard, bytes, 9);
    floe_guard_tell(guard, bytes, 9, FLOE_HIT);
    floe_row_start(row, 9, 0, bytes, 9);
    floe_row_ask(row, 9, 0, bytes, 9);
    floe_row_tell(row, 9, 0, bytes, 9, FLOE_HIT);
    floe_carry_write(guard, bytes, 9, bytes + 9, 9);
    floe_carry_read(bytes, 9, bytes, 9);
    floe_log_write(bytes, 9, bytes + 9, 9);
    floe_log_open(bytes, 9);
    floe_log_next(0, bytes, 9);
    floe_log_judge(bytes, 9, bytes, 9);
}
