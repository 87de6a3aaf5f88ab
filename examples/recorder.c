/*
 * A mobile vet's recorder takes a reading of breath and pulse four times a second. One late reading is harmless; a
 * bunch of them means that the warning of apnoea comes too late. Before each reading a guard says where things stand.
 *
 * A battery can run out in the middle of an operation, and nobody tells the recorder beforehand. So after each reading
 * it stores the guard's record, and when it is switched on again it goes on from there.
 */
#define _POSIX_C_SOURCE 200809L
#include <errno.h>
#include <fcntl.h>
#include <floelinnet.h>
#include <inttypes.h>
#include <stdio.h>
#include <stdlib.h>
#include <string.h>
#include <unistd.h>

/* At most 2 late readings in any 8, and never 2 in a row. */
static const floe_set limits = {2, {{FLOE_ANY_MISS, 2, 8}, {FLOE_ROW_MISS, 2, 0}}};

static uint8_t set[FLOE_LONGEST_SET];
static uint16_t work[FLOE_WORK_ENTRIES]; /* used by floe_build alone */
static uint8_t table[FLOE_LONGEST_TABLE];
static size_t set_len, table_len;
static int folder; /* where the record is stored, opened */

/* After a refusal nobody guards the readings: a real recorder sounds the alarm here too. */
static int stop(uint64_t refused, uint64_t at) {
    fprintf(stderr, "refused by %" PRIu64 " at %" PRIu64 "\n", refused, at);
    return 1;
}

/* Writes a file of the folder and waits until the disk has it. */
static bool write_file(const char *name, const uint8_t *bytes, size_t length) {
    int file = openat(folder, name, O_WRONLY | O_CREAT | O_TRUNC, 0600);
    if (file < 0) return false;
    bool whole = write(file, bytes, length) == (ssize_t)length && fsync(file) == 0;
    return close(file) == 0 && whole;
}

/* The new record is written beside the old one and takes its place when it is whole. So whenever the power goes, the
 * old one is there or the new one, and not a part of one or a mixture of both. */
static bool store(floe_guard guard) {
    uint8_t record[FLOE_LONGEST_RECORD];
    floe_written written = floe_carry_write(guard, set, set_len, record, sizeof record);
    return !written.refused && write_file("record.new", record, written.length) &&
           renameat(folder, "record.new", folder, "record") == 0 && fsync(folder) == 0;
}

static floe_started start_anew(void) {
    printf("a new guard starts and knows of no late reading before now: watch the animal\n");
    return floe_guard_start(table, table_len);
}

/* Whether a record that was read back carries this set, after the version. One that the software before the update
 * wrote has version 1, and is shorter. */
static bool carries_set(const uint8_t *record, size_t length) {
    size_t size = record[4] == 1 ? FLOE_OLD_RECORD_SIZE(set_len) : FLOE_RECORD_SIZE(set_len);
    return length == size && memcmp(record + 5, set, set_len) == 0;
}

/* The guard that was stored, or else a new one, and then the assistant has to hear of it. */
static floe_started switch_on(void) {
    int file = openat(folder, "record", O_RDONLY);
    if (file < 0 && errno == ENOENT) {
        printf("switched on: nothing was stored\n");
        return start_anew();
    }
    /* With room for a byte more, a file that is too long is seen to be so. One that can't be read has no bytes. */
    uint8_t record[FLOE_LONGEST_RECORD + 1];
    ssize_t length = file < 0 ? 0 : read(file, record, sizeof record);
    if (file >= 0) close(file);
    floe_started stored = floe_carry_read(record, length < 0 ? 0 : (size_t)length, table, table_len);
    if (stored.refused) {
        printf("switched on: what was stored can't be read back (refusal %" PRIu64 ")\n", stored.refused);
        return start_anew();
    }
    /* A record carries its set. This table is of these limits, and an update may have changed them. */
    if (!carries_set(record, (size_t)length)) {
        printf("switched on: what was stored is for other limits\n");
        return start_anew();
    }
    printf("switched on: the guard goes on after reading %" PRIu64 "\n", stored.guard.count);
    return stored;
}

/* The readings that are taken on one battery. */
static int take_readings(const uint8_t *in_time, size_t count) {
    floe_started started = switch_on();
    if (started.refused) return stop(started.refused, started.at);
    floe_guard guard = started.guard;

    for (size_t i = 0; i < count; i++) {
        /* A real recorder waits here for its clock's tick, four a second. */
        floe_asked asked = floe_guard_ask(guard, table, table_len);
        printf("reading %" PRIu64 ": ", guard.count + 1);
        switch (asked.answer) {
        case FLOE_NORMAL: /* this reading may be late */
            printf("normal\n");
            break;
        case FLOE_PANIC: /* put off everything else, so that this reading is in time */
            printf("panic, this one must not be late\n");
            break;
        case FLOE_LOST: /* the apnoea warning can't be trusted, until the assistant starts a new guard */
            printf("lost, alarm\n");
            break;
        default:
            return stop(asked.refused, asked.at);
        }
        /* The reading is taken here, and the clock says whether it was in time. */
        floe_told told = floe_guard_tell(guard, table, table_len, in_time[i]);
        if (told.refused) return stop(told.refused, told.at);
        guard = told.guard;
        /* The guard goes on all the same; but on another battery it would be an older one. */
        if (!store(guard)) fprintf(stderr, "alarm, the guard can't be stored: don't change the battery\n");
    }
    return 0;
}

/* Half a record, as a power cut in the middle of a write leaves it. */
static bool write_half(const char *name) {
    uint8_t record[FLOE_LONGEST_RECORD];
    floe_written written = floe_carry_write(floe_guard_new(), set, set_len, record, sizeof record);
    return write_file(name, record, written.length / 2);
}

/* One operation, in place of a clock: whether each reading was in time (1) or late (0). */
static int operate(void) {
    const uint8_t in_time[] = {1, 1, 0, 1, 0, 1, 1, 1, 1, 1, 1, 0, 0, 1, 1, 1};
    if (take_readings(in_time, 6)) return 1;

    bool normal = floe_guard_ask(floe_guard_new(), table, table_len).answer == FLOE_NORMAL;
    printf("-- battery change; a new guard would say %s now\n", normal ? "normal" : "something else");
    if (take_readings(in_time + 6, 2)) return 1;

    printf("-- power cut: half of the next record lies beside that of reading 8\n");
    if (!write_half("record.new") || take_readings(in_time + 8, 5)) return 1;

    printf("-- battery change\n");
    if (take_readings(in_time + 13, 1)) return 1;

    printf("-- power cut: of the record itself the disk has only half\n");
    if (!write_half("record") || take_readings(in_time + 14, 2)) return 1;
    return 0;
}

int main(void) {
    floe_written written = floe_write_set(limits, set, sizeof set);
    if (written.refused) return stop(written.refused, written.at);
    set_len = written.length;
    floe_built built = floe_build(set, set_len, work, FLOE_WORK_ENTRIES, table, sizeof table);
    if (built.refused) return stop(built.refused, built.at);
    table_len = built.length;

    /* A folder for this example alone. A real recorder has one that stays, and removes the record when the operation is
     * over: the next one begins with a new guard. */
    char name[] = "/tmp/recorder-XXXXXX";
    folder = mkdtemp(name) ? open(name, O_RDONLY | O_DIRECTORY) : -1;
    if (folder < 0) {
        perror(name);
        return 1;
    }
    int status = operate();
    unlinkat(folder, "record.new", 0);
    unlinkat(folder, "record", 0);
    close(folder);
    rmdir(name);
    return status;
}
