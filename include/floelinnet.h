/*
 * Floelinnet for C and C++: limits on missed deadlines, the verdict on a pattern of outcomes, the comparison
 * of two sets of limits, tables made of sets, guards that walk a table while jobs run, alone or in a row, carry-over
 * records, in which a guard is stored while it is switched off, and night logs, in which outcomes are stored.
 *
 * Link with libfloelinnet.a, which is for x86-64 Linux. `make dist` puts it, this header and a file for pkg-config into
 * dist/. With PKG_CONFIG_PATH set to dist/lib/pkgconfig:
 *
 *     cc prog.c $(pkg-config --cflags --libs floelinnet)
 *     c++ prog.cpp $(pkg-config --cflags --libs floelinnet)
 *
 * The way to guard a job that runs again and again: name its limits in a floe_set; floe_write_set writes the bytes of
 * that set, which is what functions with a `set` want; then floe_build and floe_guard_start; and each time before the
 * job runs floe_guard_ask, and after it floe_guard_tell. Jobs with the same limits share a table and may stand in a
 * row; a job with other limits has a table of its own. examples/operation.c is a whole program, docs/COOKBOOK.md has
 * more.
 *
 * The way through a change of the battery: floe_carry_write makes a record of the guard, which is stored, and when the
 * power is back floe_carry_read gives that guard. examples/recorder.c is a whole program.
 *
 * The way to judge a visit later: floe_log_write makes a night log of its outcomes, which is stored, and floe_log_judge
 * gives the verdict on it, under these or any other limits, and says of a lost one where to look. examples/visit.c is a
 * whole program.
 *
 * Lengths named ..._len count elements: bytes, and for `work` entries of 16 bits. The `count` of a row counts guards.
 *
 * Answers. Each begins with `refused`, which is 0 where the call was not refused, and else a number of enum
 * floe_refusal; and with `at`, which says more for some numbers and is 0 for all others, and where nothing is refused.
 * A refused call doesn't say that all is well: `kept` and `covers` are 0, `answer` is FLOE_REFUSED, of a log
 * FLOE_LOG_REFUSED, lengths and counts are 0. It writes to nothing that was lent to it, the row included, but for
 * FLOE_REFUSED_ROOM (see floe_build), and a guard or a place that was handed in comes back as it was. So look at
 * `refused` after a start, after a tell and after a record is read: the guard alone doesn't show that the table wasn't
 * accepted, the outcome not told, or the record refused. floe_guard_new alone answers with a guard and nothing else: it
 * refuses nothing.
 *
 * Pointers. Every pointer is valid for its length: to read, and through a pointer that isn't const also to write.
 * A null pointer is never allowed; a length of 0 wants a pointer that isn't null (in C++ the data() of an empty vector
 * may be), and nothing is read through it.
 * `work` is aligned as a uint16_t, `row` as a floe_guard. What is written in a call (`bytes` of floe_write_set, `work`
 * and `table` of floe_build, `row` of floe_row_start and floe_row_tell, `record` of floe_carry_write, `log` of
 * floe_log_write) overlaps nothing else that is handed over in that call.
 *
 * Who owns what. All memory is the caller's. No function allocates, and none keeps a pointer after it returns.
 * Structs are passed and returned by value; none has to be released.
 *
 * Memory. A set has at most 30 bytes, a table at most 131079, a guard 32, a record at most FLOE_LONGEST_RECORD, a log
 * of n outcomes FLOE_LOG_SIZE(n); building wants a work area of 262144 bytes, which is free again afterwards. A machine
 * that hasn't so much has its tables built elsewhere and stored (docs/COOKBOOK.md). No call uses more than 1024 bytes of
 * stack, the record of its answer included, and the archive has no memory of its own. Of the C library it calls memset
 * alone; where that is linked lazily, the dynamic linker takes some stack of its own in the first call (-z now does that
 * before main).
 *
 * Threads. No state is kept between calls, so any thread may call any function at any time, as long as no other
 * thread writes to what a call reads, or uses what a call writes, while it runs. A row counts as a whole here: while
 * one of its jobs is started or told, no other thread uses any of its guards.
 */
#ifndef FLOELINNET_H
#define FLOELINNET_H

#include <stdbool.h>
#include <stddef.h>
#include <stdint.h>

/* The version of this header and of the archive that it came with. A program is compiled against the header of the
 * archive that it links. */
#define FLOE_VERSION "0.8.0"

#define FLOE_MOST_LIMITS 8        /* limits in a set, at the most */
#define FLOE_LONGEST_SET 30       /* bytes of the longest set */
#define FLOE_WORK_ENTRIES 131072  /* entries of 16 bits that floe_build works in */
#define FLOE_LONGEST_TABLE 131079 /* bytes of the longest table */
#define FLOE_MOST_GUARDS 16       /* guards in a row, at the most */
#define FLOE_LONGEST_WINDOW 16    /* jobs of the longest window */

/* Outcomes that a guard holds. A window that a later outcome completes reaches back no further. */
#define FLOE_HELD (FLOE_LONGEST_WINDOW - 1)

/* Bytes of the carry-over record of a guard and a set of set_len bytes, as a number of 64 bits whatever integer type
 * set_len has, in #if too: a head of 5, the set, FLOE_HELD outcomes, and 9 for the count and the lost byte. Nothing
 * overflows up to UINT64_MAX - FLOE_RECORD_SIZE(0). set_len is evaluated once. */
#define FLOE_RECORD_SIZE(set_len) ((set_len) + UINT64_C(5) + FLOE_HELD + 9)
#define FLOE_LONGEST_RECORD FLOE_RECORD_SIZE(FLOE_LONGEST_SET) /* bytes of the longest record, 59 */

/* The same of a record of version 1, which has 11 outcomes. Such records are read, but no longer written. */
#define FLOE_OLD_RECORD_SIZE(set_len) ((set_len) + UINT64_C(5) + 11 + 9)

/* Bytes of the log of n outcomes, as a number of 64 bits whatever integer type n has, in #if too. For n from 0 to
 * 4,294,967,295, the most outcomes of a log; nothing overflows up to UINT64_MAX - 7. n is evaluated once. */
#define FLOE_LOG_SIZE(n) (9 + ((n) + UINT64_C(7)) / 8)

/* An outcome, a byte; a pattern has one a job, oldest first. */
enum floe_outcome {
    FLOE_MISS = 0, /* the deadline was missed */
    FLOE_HIT = 1   /* the deadline was met */
};

/* The kind of a limit. Of the first three k is the length of the window, 1 to 16 jobs, and x is 0 to k. With x 0 the
 * first two can't be broken, nor can the third with x = k: a set of such limits alone is refused by 21. */
enum floe_kind {
    FLOE_ANY_HIT = 0,  /* at least x hits in every k jobs */
    FLOE_ROW_HIT = 1,  /* x hits in a row in every k jobs */
    FLOE_ANY_MISS = 2, /* at most x misses in every k jobs */
    FLOE_ROW_MISS = 3  /* x misses in a row never happen, x from 1 to 16; k is 0 */
};

/* What a guard answers before a job. Test for the first two and take everything else as an alarm, in a switch by its
 * default: a test for FLOE_PANIC alone takes FLOE_LOST and FLOE_REFUSED for normal. */
enum floe_answer {
    FLOE_NORMAL = 0, /* a miss is still allowed */
    FLOE_PANIC = 1,  /* the outcomes told so far are kept, and with one more miss they aren't */
    FLOE_LOST = 2,   /* a miss was told in panic */
    FLOE_REFUSED = 3 /* the call was refused: nobody guards this job */
};

/* What the next call of a log's reader answers. The first two are an outcome, by its number in enum floe_outcome. Only
 * FLOE_LOG_END says that the outcomes are all: take everything after it as an alarm, and a loop that stops at the first
 * answer that isn't an outcome has to look at which one that is. */
enum floe_log_answer {
    FLOE_LOG_MISS = 0,   /* the outcome is a miss */
    FLOE_LOG_HIT = 1,    /* the outcome is a hit */
    FLOE_LOG_END = 2,    /* the place is past the last outcome */
    FLOE_LOG_REFUSED = 3 /* the call was refused: there is no outcome, and nobody knows what the log held */
};

/* Why a call is refused, and what `at` says then (where nothing is said, 0). The numbers are tested in this order,
 * limits first to last and each for its kind, k and x, and the first that applies is given; but 21 is tested straight
 * after 1 to 7, a call on a row tests FLOE_REFUSED_JOB first, floe_judge tests 26 before 13, floe_log_write tests 15,
 * 13 and then 9, and floe_carry_read tests 18, 1 to 7, 21, 20, 13, 19, 10 to 12 and then 25. */
enum floe_refusal {
    FLOE_ACCEPTED = 0,                /* the call was not refused */
    FLOE_REFUSED_SET_LENGTH = 1,      /* set: under 6 bytes, or its length field isn't the count of bytes after it */
    FLOE_REFUSED_SET_VERSION = 2,     /* the set's version isn't 1 */
    FLOE_REFUSED_LIMIT_COUNT = 3,     /* the set's count of limits is 0 or above 8 */
    FLOE_REFUSED_LIMITS_LENGTH = 4,   /* the set's length field isn't 2 + 3 * count */
    FLOE_REFUSED_LIMIT_KIND = 5,      /* a limit's kind is above 3; at: its number, from 0 */
    FLOE_REFUSED_LIMIT_K = 6,         /* a limit's k isn't one that its kind takes; at: its number, from 0 */
    FLOE_REFUSED_LIMIT_X = 7,         /* a limit's x isn't one that its kind takes; at: its number, from 0 */
    FLOE_REFUSED_WORK_LENGTH = 8,     /* the work area has fewer than 131072 entries */
    FLOE_REFUSED_ROOM = 9,            /* the buffer is shorter than what must be written, a table, a set, a log or a
                                         record; at: the length needed, in bytes */
    FLOE_REFUSED_TABLE_LENGTH = 10,   /* table: under 7 bytes, or its length field isn't the count of bytes after it */
    FLOE_REFUSED_TABLE_VERSION = 11,  /* the table's version isn't 1 */
    FLOE_REFUSED_STATES = 12,         /* the table's count of states n is 0 or above 32768, its length field isn't
                                         3 + 4 * n, a next state is n or more (FF FF after a miss excepted), or the
                                         guard's state is n or more */
    FLOE_REFUSED_OUTCOME = 13,        /* an outcome is neither 0 nor 1; at: its place among the outcomes, from 0, and 0
                                         in a tell */
    FLOE_REFUSED_JOB = 14,            /* the row has no guard of this job's number, from 0, or more than 16 guards */
    FLOE_REFUSED_LOG = 15,            /* log: under 9 bytes, or its length field isn't the count of bytes after it, its
                                         version isn't 1, or its length field isn't 5 and the bytes that its count of
                                         outcomes takes; or a pattern for a log has more than 4,294,967,295 outcomes */
    FLOE_REFUSED_UNUSED_BITS = 16,    /* the low bits of the log's last byte that no outcome takes aren't all zero */
    FLOE_REFUSED_COUNT = 17,          /* the guard was told 18,446,744,073,709,551,615 outcomes, UINT64_MAX, already */
    FLOE_REFUSED_RECORD = 18,         /* record: its version is neither 1 nor 2; or it has under FLOE_RECORD_SIZE(0)
                                         bytes, with version 1 under FLOE_OLD_RECORD_SIZE(0); or its length field isn't
                                         the count of bytes after it */
    FLOE_REFUSED_LOST_BYTE = 19,      /* the lost byte of the record is neither 0 nor 1 */
    FLOE_REFUSED_OLD_RECORD = 20,     /* a record of version 1 whose set has a window of more than 12 jobs: what it holds
                                         doesn't reach back so far, so start a new guard */
    FLOE_REFUSED_LIMITS_NOTHING = 21, /* the set keeps every pattern, so no guard would ever warn: each of its limits is
                                         an AnyHit or RowHit with x 0 or an AnyMiss with x = k. Give at least one an x
                                         that can be broken */
    FLOE_REFUSED_WALK = 25,           /* the outcomes of the record can't be walked on the table from state 0 */
    FLOE_REFUSED_PATTERN_LENGTH = 26  /* a pattern that is to be judged has more than 9,223,372,036,854,775,807 outcomes;
                                         no memory of an x86-64 machine holds so many */
};

/* A compiler that can do so warns where an answer is dropped. What a guard was told is in the guard that comes back, so
 * `floe_guard_tell(...);` as a statement tells nothing. */
#if (defined(__cplusplus) && __cplusplus >= 201703L) || (defined(__STDC_VERSION__) && __STDC_VERSION__ >= 202311L)
#define FLOE_NODISCARD [[nodiscard]]
#elif defined(__GNUC__)
#define FLOE_NODISCARD __attribute__((warn_unused_result))
#else
#define FLOE_NODISCARD
#endif

#ifdef __cplusplus
extern "C" {
#endif

/* kind: one of enum floe_kind, with x and k as it says. */
typedef struct { uint8_t kind, x, k; } floe_limit;

/* A set of limits in memory. At most 2 misses in every 8 jobs, and never 2 in a row:
 *
 *     floe_set set = {2, {{FLOE_ANY_MISS, 2, 8}, {FLOE_ROW_MISS, 2, 0}}};
 *
 * count says how many of the places are limits: those from count on aren't looked at, whatever they hold, and a set
 * that was read has zeros there. */
typedef struct { uint64_t count; floe_limit limits[FLOE_MOST_LIMITS]; } floe_set;

/* A guard. state: where one job stands on its table. lost: whether a miss was told in panic. outcomes: the last
 * FLOE_HELD that it was told since its start, oldest first, true for a hit, with hits in the places of those that it
 * wasn't told yet. count: how many it was told since its start.
 *
 * A guard with nothing told isn't lost, is in state 0, holds hits alone and has the count 0. floe_guard_new gives one,
 * and so does floe_guard_start. All bytes zero are another guard, which holds misses: {0}, memset and calloc don't make
 * one with nothing told. Asking and telling don't show that, but its record may be refused, or be read back in another
 * state.
 *
 * A guard that is lost keeps the state and the outcomes that it had before the miss in panic. It goes on counting: that
 * miss is counted, and so is every outcome that it is told later.
 *
 * It belongs to the table that it was started on, and no call can see which that was: on another table its state is
 * taken for the one of that number there, and refused only where there is none. To copy it is to copy the job's
 * standing. The bytes of lost and of outcomes are 0 or 1, as in every C bool: a guard that nobody wrote, or whose bytes
 * come from elsewhere, is the caller's to rule out, and a guard that has to be stored is stored as a record. Some of
 * its bytes hold nothing, so two guards are compared field by field, and not by memcmp. */
typedef struct { uint16_t state; bool lost; bool outcomes[FLOE_HELD]; uint64_t count; } floe_guard;

typedef struct { uint64_t refused, at; floe_set set; } floe_set_read;
typedef struct { uint64_t refused, at, length; } floe_written;
typedef struct { uint64_t refused, at, kept, job, limit; int64_t first; } floe_verdict;
typedef struct { uint64_t refused, at, which, covers, length; uint8_t pattern[16]; } floe_comparison;
typedef struct { uint64_t refused, at, length; } floe_built;
typedef struct { uint64_t refused, at, states; } floe_checked;
typedef struct { uint64_t refused, at; floe_guard guard; } floe_started;
typedef struct { uint64_t refused, at, answer; floe_guard guard; } floe_asked;
typedef struct { uint64_t refused, at; floe_guard guard; } floe_told;
typedef struct { uint64_t refused, at; } floe_done;
typedef struct { uint64_t refused, at, answer; } floe_row_asked;
typedef struct { uint64_t refused, at, place; } floe_log_opened;
typedef struct { uint64_t refused, at, answer, place; } floe_log_read;

/*
 * Reads the bytes of a set: four bytes, big-endian, that count the bytes after them; the version, 1; the count of
 * limits, 1 to 8; and for each limit its kind, x and k. At most FLOE_LONGEST_SET bytes.
 *
 * Returns the set. Refuses by 1 to 7 and 21; the set that comes with a refusal has count 0 and holds zeros.
 */
FLOE_NODISCARD floe_set_read floe_read_set(const uint8_t *set, size_t set_len);

/*
 * Writes the bytes of a set that is in memory: what floe_read_set reads, and floe_judge, floe_compare and floe_build
 * take. FLOE_LONGEST_SET bytes are room for every set; bytes past those that are written are left alone.
 *
 * length: how many bytes were written, 6 + 3 * count; 0 on a refusal.
 *
 * Refuses by 3, by 5 to 7 and by 21 for the set, then by 9 with the length that is needed in at, and then writes
 * nothing.
 */
FLOE_NODISCARD floe_written floe_write_set(floe_set set, uint8_t *bytes, size_t bytes_len);

/*
 * Judges a pattern of outcomes, one a byte, under the set in these bytes. A pattern is kept when every window of
 * every limit holds, with endless hits before and after the pattern.
 *
 * kept: 1 where the pattern is kept (the empty pattern always is); 0 where it is lost or the call is refused.
 * job: where it is lost, the first job, from 1, up to which it isn't kept. limit: the lowest number, from 0, of a limit
 * that doesn't keep the pattern up to that job. Both are 0 where nothing is lost.
 * first: where it is lost, where to look. With endless hits before and after the pattern up to that job, the earliest
 * window of that limit that fails begins with this job. The job at which the pattern is lost lies in this window, so
 * job - first is below FLOE_LONGEST_WINDOW. The pattern begins with job 1; jobs 0, -1, -2 and so on, down to -14, are
 * hits that count as standing before it. first is 0 where nothing is lost; but a window may begin with job 0, so look
 * at refused, and at kept or job, before it.
 *
 * Refuses by 1 to 7 and 21 for the set, then by 26 and then by 13 for the pattern: all of its outcomes are tested, even
 * if it is lost earlier.
 */
FLOE_NODISCARD floe_verdict floe_judge(const uint8_t *set, size_t set_len,
                                       const uint8_t *pattern, size_t pattern_len);

/*
 * Compares two sets: does every pattern that the first keeps, the second keep too?
 *
 * covers: 1 if so; length is 0 then. Else 0, and length and pattern are the shortest pattern that the first keeps and
 * the second doesn't, 1 to 16 outcomes, of equal lengths the one with a miss at the earliest place where they differ.
 * The places of pattern from length on are 0.
 *
 * Refuses by 1 to 7 and 21, the first set before the second. which says the set that is refused, 1 or 2; it is 0 where
 * none is. covers and length are 0 on a refusal.
 */
FLOE_NODISCARD floe_comparison floe_compare(const uint8_t *first, size_t first_len,
                                            const uint8_t *second, size_t second_len);

/*
 * Builds the table of a set: the smallest machine that walks exactly the patterns that the set keeps. Two sets that
 * keep the same patterns give the same bytes. It has a state in which a miss isn't allowed.
 *
 * work is lent for the call: FLOE_WORK_ENTRIES entries are used, whatever they hold. table takes the table's bytes, at
 * most FLOE_LONGEST_TABLE: four bytes, big-endian, that count the bytes after them; the version, 1; two bytes for the
 * count of states n; and for each state two bytes for the next state after a miss (FF FF: a miss isn't allowed) and two
 * for that after a hit.
 *
 * length: the length of the table, 7 + 4 * n bytes; 0 on a refusal. Bytes of table beyond it are never written.
 *
 * Refuses by 1 to 7 and 21, then by 8, then by 9 with the length that is needed in at. Whether it builds or refuses by
 * 9, it leaves the first FLOE_WORK_ENTRIES entries of work zero; entries beyond those are never written. A refusal by
 * another number writes nothing, and one by 9 nothing to table.
 */
FLOE_NODISCARD floe_built floe_build(const uint8_t *set, size_t set_len, uint16_t *work, size_t work_len,
                                     uint8_t *table, size_t table_len);

/*
 * Checks the bytes of a whole table, in time that grows with its length. table_len is the table's own length, not
 * that of a longer buffer that holds it.
 *
 * states: the count of states, 1 to 32768; 0 on a refusal. Refuses by 10 to 12. It doesn't say of which set the table
 * is, nor that it is of one.
 */
FLOE_NODISCARD floe_checked floe_check_table(const uint8_t *table, size_t table_len);

/*
 * Gives a guard with nothing told: not lost, in state 0, hits alone held, count 0. No table is checked for it. A new
 * row is filled with it. It refuses nothing.
 */
FLOE_NODISCARD floe_guard floe_guard_new(void);

/*
 * Starts a guard on a table, which is checked as by floe_check_table.
 *
 * guard: a guard with nothing told, as floe_guard_new gives it, also on a refusal.
 *
 * Refuses by 10 to 12: look at refused before the guard is used, since asking and telling don't check the whole table.
 */
FLOE_NODISCARD floe_started floe_guard_start(const uint8_t *table, size_t table_len);

/*
 * Asks, before a job, whether a miss is still allowed.
 *
 * answer: one of enum floe_answer. guard: the guard as it was handed in; asking changes nothing.
 *
 * Refuses by 10 to 12, whether or not the guard is lost. Of the table only its head and the entry of the guard's state
 * are tested, in time that doesn't grow with its length.
 */
FLOE_NODISCARD floe_asked floe_guard_ask(floe_guard guard, const uint8_t *table, size_t table_len);

/*
 * Tells a guard, after a job, its outcome: FLOE_HIT or FLOE_MISS.
 *
 * guard: the guard to go on with. Its count is one more. It is in the next state and holds the outcome as its newest,
 * without its oldest. A miss told in panic makes it lost instead: its state and its outcomes then stay, whatever it is
 * told, and it is lost until the caller starts a new guard: no outcome brings it back. On a table that floe_build made
 * of a set, FLOE_HELD hits in a row bring a guard that isn't lost back to state 0 with hits alone held; its count goes
 * on.
 *
 * Refuses by 10 to 12, tested as by floe_guard_ask, then by 13 (at is 0), then by 17 where the count is UINT64_MAX,
 * each whether or not the guard is lost. guard is the one handed in then, and no outcome was told: look at refused.
 */
FLOE_NODISCARD floe_told floe_guard_tell(floe_guard guard, const uint8_t *table, size_t table_len, uint8_t outcome);

/*
 * A row: guards for up to FLOE_MOST_GUARDS jobs on one table, in an array of the caller's that is lent to each call. A
 * new row holds guards with nothing told, and an initializer can't say that:
 *
 *     floe_guard row[FLOE_MOST_GUARDS];
 *     for (size_t job = 0; job < FLOE_MOST_GUARDS; job++) row[job] = floe_guard_new();
 *
 * A row has to be written so, or copied from one, before any call, floe_row_start too, which keeps the old guard where
 * it refuses. Then start each of its jobs, which checks the whole table; without that a guard of a new row can be asked
 * and told as well. A guard of a row is a guard like any other: row[job] goes to floe_carry_write, and what
 * floe_carry_read gives into row[job]. A call concerns the guard of one job, numbered from 0 (in a row a job is one of
 * several that run side by side; in a pattern it is one run): the guards of the other jobs are never written, and the
 * answer doesn't depend on them.
 *
 * A single guard is a row of one. Handed over by its address it isn't copied in and out: an ask is cheaper so, and
 * whether a tell is depends on the machine. What they answer is the same:
 *
 *     floe_row_asked asked = floe_row_ask(&guard, 1, 0, table, table_len);
 *     floe_done told = floe_row_tell(&guard, 1, 0, table, table_len, FLOE_HIT);
 */

/*
 * Starts the guard of one job, as floe_guard_start does: row[job] is then a guard with nothing told, whatever it was.
 * No other call on a row brings a lost guard back.
 *
 * Refuses by 14, then by 10 to 12; row[job] is then the guard that it was.
 */
FLOE_NODISCARD floe_done floe_row_start(floe_guard *row, size_t count, size_t job,
                                        const uint8_t *table, size_t table_len);

/*
 * Asks the guard of one job, before that job, whether a miss is still allowed, as floe_guard_ask does.
 *
 * answer: one of enum floe_answer. The row isn't written.
 *
 * Refuses by 14, then by 10 to 12, whether or not the guard is lost.
 */
FLOE_NODISCARD floe_row_asked floe_row_ask(const floe_guard *row, size_t count, size_t job,
                                           const uint8_t *table, size_t table_len);

/*
 * Tells the guard of one job, after that job, its outcome, as floe_guard_tell does: row[job] becomes the guard to go on
 * with.
 *
 * Refuses by 14, then by 10 to 12, then by 13 (at is 0), then by 17, whether or not the guard is lost. The row is then
 * as it was, and no outcome was told: look at refused.
 */
FLOE_NODISCARD floe_done floe_row_tell(floe_guard *row, size_t count, size_t job,
                                       const uint8_t *table, size_t table_len, uint8_t outcome);

/*
 * A carry-over record, in short a record: a guard as it is stored while it is switched off, beside the set whose table
 * it walks. Its bytes are four, big-endian, that count the bytes after them; the version, 2; the bytes of the set, with
 * their own head; the FLOE_HELD outcomes that the guard holds, one a byte, oldest first; eight for the count; and one
 * that is 1 if the guard is lost, else 0. The set's bytes are all that lie between the version, which is byte 4, and
 * the last FLOE_HELD + 9. With the set AnyHit(1,2) a guard that was told one miss has
 *
 *     00 00 00 22 02  00 00 00 05 01 01 00 01 02
 *     01 01 01 01 01 01 01 01 01 01 01 01 01 01 00  00 00 00 00 00 00 00 01  00
 *
 * The state isn't in it: reading walks the outcomes on a table from state 0. Write a record before the power goes, or
 * after each tell, and when it is back read it instead of starting a guard. To write that of a guard and the bytes of
 * its set, and to read it on the table that floe_build made of these bytes:
 *
 *     uint8_t record[FLOE_LONGEST_RECORD];
 *     floe_written stored = floe_carry_write(guard, limits, limits_len, record, sizeof record);
 *     floe_started again = floe_carry_read(record, stored.length, table, table_len);
 *
 * again.guard is then guard, field for field, if guard was started and told on that table: it answers every ask and
 * tell as one that was never switched off, through any number of changes. A refused writing needs no test of its own
 * here: its length is 0, and reading refuses a record of no bytes.
 *
 * Which table. A record doesn't say of which table it is, and reading doesn't ask whether the table was made of the
 * record's set: on another table it gives the guard in the state where the walk ends there, or refuses by 25. So keep
 * the set and its table together and read only a record that carries this set: its length is
 * FLOE_RECORD_SIZE(limits_len), and memcmp(record + 5, limits, limits_len) is 0. Or build the table from the set that
 * the record carries: its bytes are those from record + 5 on, FLOE_RECORD_SIZE(0) fewer than the record has, and a
 * record that hasn't even so many carries none. Of a record of version 1, record[4] tells, both are said by
 * FLOE_OLD_RECORD_SIZE instead.
 *
 * Version 1. Before 0.7.0 a record had the version 1 and the last 11 outcomes, as many as matter while no window has
 * more than 12 jobs. It is read as one that has hits in the places of the four older outcomes, and on the table that
 * floe_build makes of its set the guard goes on as one that was never switched off. Where its set has a longer window,
 * it is refused by 20. Only version 2 is written.
 *
 * What can't be noticed. A record that was cut short is refused by 18. But it has no check sum, and a record that is
 * written over the old one and torn in the middle has bytes of both, which may pass every test and be the guard of
 * nobody. So write it to a file beside the old one, sync that file, rename it over the old one and sync the folder:
 * after a cut of the power the old record is there, or the new one, and nothing between. The old one lacks what was
 * told since. Bytes that the storage changes by itself are noticed only where they break a rule of the layout.
 */

/*
 * Writes the record of a guard and the bytes of a set. record is a buffer here: FLOE_RECORD_SIZE(set_len) bytes are
 * room enough, and FLOE_LONGEST_RECORD for every set; bytes past those that are written are left alone.
 *
 * length: the length of the record, FLOE_RECORD_SIZE(set_len); 0 on a refusal.
 *
 * Refuses by 1 to 7 and 21 for the set, then by 9 with the length that is needed in at, and then writes nothing. The
 * guard is never refused.
 */
FLOE_NODISCARD floe_written floe_carry_write(floe_guard guard, const uint8_t *set, size_t set_len,
                                             uint8_t *record, size_t record_len);

/*
 * Reads a record back on a table, all of which is checked, as by floe_guard_start. record_len and table_len are their
 * own lengths, not those of longer buffers that hold them.
 *
 * guard: the guard with the record's outcomes and count, lost as it says, in the state where the walk of the outcomes
 * from state 0 ends; on a refusal a guard with nothing told. So look at refused first: that guard looks like one that
 * was just started.
 *
 * Refuses by 18; then by 1 to 7 and 21 for the set's bytes in the record; then by 20; then by 13 for its outcomes, with
 * the place, from 0, among those that it has in at; then by 19; then by 10 to 12 for the table; then by 25, whether or
 * not the record is of a lost guard. A count, outcomes and a lost byte that no guard has together aren't refused for
 * that.
 */
FLOE_NODISCARD floe_started floe_carry_read(const uint8_t *record, size_t record_len,
                                            const uint8_t *table, size_t table_len);

/*
 * A night log: the outcomes of a visit as they are stored. Its bytes are four, big-endian, that count the bytes after
 * them; the version, 1; four for the count of outcomes; and the outcomes, eight to a byte, the oldest in the high bit,
 * 1 for a hit. The low bits of the last byte that no outcome takes are zero. Each pattern has one log, and reading that
 * log gives the pattern: 1 1 0 1 has 00 00 00 06 01 00 00 00 04 D0.
 *
 * A log is handed over with its own length, not that of a longer buffer that holds it. A reader is a log and a place in
 * it, the number of outcomes handed out, both kept by the caller. To write the log of a pattern, to count the hits in
 * it, one outcome a call, and to judge it under the bytes of a set:
 *
 *     floe_written written = floe_log_write(pattern, pattern_len, log, sizeof log);
 *     floe_log_opened opened = floe_log_open(log, written.length);
 *     floe_log_read read = floe_log_next(opened.place, log, written.length);
 *     for (; read.answer < FLOE_LOG_END; read = floe_log_next(read.place, log, written.length)) hits += read.answer;
 *     floe_verdict verdict = floe_log_judge(limits, limits_len, log, written.length);
 *
 * Where read.answer is then FLOE_LOG_END, all outcomes were handed out, and read.place counts them. A refused pattern
 * needs no test of its own: the length of its log is 0, and the calls below refuse a log of no bytes.
 */

/*
 * Writes the log of a pattern of outcomes, one a byte. log is a buffer here, and FLOE_LOG_SIZE(pattern_len) bytes are
 * room enough; bytes past those that are written are left alone.
 *
 * length: the length of the log, FLOE_LOG_SIZE(pattern_len); 0 on a refusal.
 *
 * Refuses by 15 for more than 4,294,967,295 outcomes, then by 13 with the first place where an outcome is none in at,
 * then by 9 with the length that is needed in at, and then writes nothing.
 */
FLOE_NODISCARD floe_written floe_log_write(const uint8_t *pattern, size_t pattern_len, uint8_t *log, size_t log_len);

/*
 * Opens a log: tests that the bytes are one, in time that doesn't grow with its length.
 *
 * place: where reading begins, 0, on a refusal too.
 *
 * Refuses by 15, then by 16.
 */
FLOE_NODISCARD floe_log_opened floe_log_open(const uint8_t *log, size_t log_len);

/*
 * Hands out the outcome at a place of a log, counted from 0. The oldest is at the place that floe_log_open gives, and
 * each call gives the place of the next; a caller may also begin elsewhere.
 *
 * answer: one of enum floe_log_answer. place: the place to go on with, one more than that handed in where an outcome
 * was handed out. Past the last outcome, however far, the answer is FLOE_LOG_END, each time, and place the one handed
 * in.
 *
 * Refuses by 15, then by 16, tested in each call as by floe_log_open, wherever the place is; place is then the one
 * handed in.
 */
FLOE_NODISCARD floe_log_read floe_log_next(uint64_t place, const uint8_t *log, size_t log_len);

/*
 * Judges the outcomes that a log holds, under the set in these bytes: the verdict that floe_judge gives on the pattern
 * of which it is the log.
 *
 * Refuses by 1 to 7 and 21 for the set, then by 15 and by 16 for the log; kept is 0 then. It never refuses by 26, since
 * no log has so many outcomes.
 */
FLOE_NODISCARD floe_verdict floe_log_judge(const uint8_t *set, size_t set_len, const uint8_t *log, size_t log_len);

#ifdef __cplusplus
}
#endif

#endif
