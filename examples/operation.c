/*
 * A mobile vet's recorder takes a reading of breath and pulse four times a second. One late reading is harmless; a
 * bunch of them means that the warning of apnoea comes too late. Before each reading a guard says where things stand.
 */
#include <floelinnet.h>
#include <inttypes.h>
#include <stdio.h>

/* At most 2 late readings in any 8, and never 2 in a row. */
static const floe_set limits = {2, {{FLOE_ANY_MISS, 2, 8}, {FLOE_ROW_MISS, 2, 0}}};

/* One operation, in place of a clock: whether each reading was in time (1) or late (0). */
static const uint8_t operation[] = {1, 1, 0, 1, 0, 1, 1, 1, 1, 1, 1, 0, 0, 1, 1};

static uint8_t set[FLOE_LONGEST_SET];
static uint16_t work[FLOE_WORK_ENTRIES]; /* used by floe_build alone */
static uint8_t table[FLOE_LONGEST_TABLE];

/* After a refusal nobody guards the readings: a real recorder sounds the alarm here too. */
static int stop(uint64_t refused, uint64_t at) {
    fprintf(stderr, "refused by %" PRIu64 " at %" PRIu64 "\n", refused, at);
    return 1;
}

int main(void) {
    floe_written written = floe_write_set(limits, set, sizeof set);
    if (written.refused) return stop(written.refused, written.at);
    floe_built built = floe_build(set, written.length, work, FLOE_WORK_ENTRIES, table, sizeof table);
    if (built.refused) return stop(built.refused, built.at);
    floe_started started = floe_guard_start(table, built.length);
    if (started.refused) return stop(started.refused, started.at);
    floe_guard guard = started.guard;

    for (unsigned i = 0; i < sizeof operation; i++) {
        /* A real recorder waits here for its clock's tick, four a second. */
        floe_asked asked = floe_guard_ask(guard, table, built.length);
        switch (asked.answer) {
        case FLOE_NORMAL: /* this reading may be late */
            printf("reading %u: normal\n", i + 1);
            break;
        case FLOE_PANIC: /* put off everything else, so that this reading is in time */
            printf("reading %u: panic, this one must not be late\n", i + 1);
            break;
        case FLOE_LOST: /* the apnoea warning can't be trusted, until the assistant starts a new guard */
            printf("reading %u: lost, alarm\n", i + 1);
            break;
        default:
            return stop(asked.refused, asked.at);
        }
        /* The reading is taken here, and the clock says whether it was in time. */
        floe_told told = floe_guard_tell(guard, table, built.length, operation[i]);
        if (told.refused) return stop(told.refused, told.at);
        guard = told.guard;
    }
    return 0;
}
