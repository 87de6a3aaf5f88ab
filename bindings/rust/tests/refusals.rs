//! Every refusal once through the safe face, with its number, what comes beside it and its words.

use floelinnet::*;

const SET: [u8; 9] = [0, 0, 0, 5, 1, 1, 0, 1, 2];
const LOG: [u8; 10] = [0, 0, 0, 6, 1, 0, 0, 0, 4, 0b1101_0000];
const TABLE: [u8; 15] = [0, 0, 0, 11, 1, 0, 2, 0, 1, 0, 0, 0xFF, 0xFF, 0, 0];

const LIMITS_NOTHING: &str = "the set keeps every pattern, so no warning would ever come: give at least one limit an \
                              x that can be broken (AnyHit and RowHit at least 1, AnyMiss below its k)";

/// The bytes with one of them changed.
fn with<const N: usize>(mut bytes: [u8; N], place: usize, byte: u8) -> [u8; N] {
    bytes[place] = byte;
    bytes
}

/// A guard that was told two misses.
fn lost() -> Guard {
    [MISS, MISS].iter().fold(Guard::default(), |guard, &outcome| guard.tell(&TABLE, outcome).unwrap())
}

fn says(refused: Refused, number: u8, at: usize, words: &str) {
    assert_eq!((refused.number(), refused.at()), (number, at), "{refused:?}");
    assert_eq!(refused.to_string(), format!("refusal {number}: {words}"));
}

#[test]
fn of_sets() {
    let refused = |set: &[u8]| read_set(set).unwrap_err();
    let length = "the set has fewer than 6 bytes, or its length field isn't the count of bytes after it";
    says(refused(&[]), 1, 0, length);
    says(refused(&SET[..8]), 1, 0, length);
    says(refused(&with(SET, 4, 2)), 2, 0, "the set's version isn't 1");
    says(refused(&with(SET, 5, 9)), 3, 0, "the set's count of limits is 0 or above 8");
    says(refused(&with(SET, 5, 2)), 4, 0, "the set's length field isn't 2 + 3 times its count of limits");
    let three = |kind, x, k| [0, 0, 0, 11, 1, 3, 0, 1, 2, 3, 16, 0, kind, x, k];
    says(refused(&three(4, 1, 2)), 5, 2, "the kind of limit 2 is above 3");
    says(refused(&three(3, 1, 2)), 6, 2, "the k of limit 2 isn't 1 to 16 (RowMiss: 0)");
    says(refused(&three(0, 3, 2)), 7, 2, "the x of limit 2 isn't 0 to its k (RowMiss: 1 to 16)");
    says(refused(&[0, 0, 0, 8, 1, 2, 0, 0, 2, 2, 12, 12]), 21, 0, LIMITS_NOTHING);
    assert!(read_set(&[0, 0, 0, 8, 1, 2, 0, 0, 2, 2, 11, 12]).is_ok()); // one limit that can be broken is enough
}

#[test]
fn of_sets_made_of_limits() {
    let refused = |limits: &[Limit]| LimitSet::new(limits).unwrap_err();
    let one_of_two = Limit::AnyHit { x: 1, k: 2 };
    for limits in [&[][..], &[one_of_two; MOST_LIMITS + 1]] {
        says(refused(limits), 3, 0, "the set's count of limits is 0 or above 8");
    }
    let (k_too_long, x_above_k) = (Limit::RowHit { x: 1, k: 17 }, Limit::AnyMiss { x: 3, k: 2 });
    says(refused(&[one_of_two, k_too_long]), 6, 1, "the k of limit 1 isn't 1 to 16 (RowMiss: 0)");
    says(refused(&[one_of_two, x_above_k]), 7, 1, "the x of limit 1 isn't 0 to its k (RowMiss: 1 to 16)");
    let idle = [Limit::AnyHit { x: 0, k: 2 }, Limit::RowHit { x: 0, k: 16 }, Limit::AnyMiss { x: 12, k: 12 }];
    for limits in [&idle[..1], &idle[1..2], &idle[2..], &idle] {
        says(refused(limits), 21, 0, LIMITS_NOTHING);
    }
    assert_eq!(refused(&[idle[0], x_above_k]), Refused::LimitX { limit: 1 }); // 7 of every limit before 21
    assert!(LimitSet::new(&[idle[0], one_of_two, idle[2]]).is_ok());
    for x in [0, 17] {
        says(refused(&[Limit::RowMiss { x }]), 7, 0, "the x of limit 0 isn't 0 to its k (RowMiss: 1 to 16)");
    }
}

#[test]
fn of_builds() {
    let mut work = vec![7; WORK_ENTRIES];
    let mut table = [7; 14];
    let refused = build(&SET, &mut work[1..], &mut table).unwrap_err();
    says(refused, 8, 0, "the work area has fewer than 131072 entries");
    assert!(work.iter().all(|&entry| entry == 7));
    says(
        build(&SET, &mut work, &mut table).unwrap_err(),
        9,
        15,
        "the buffer is shorter than the 15 bytes to be written",
    );
    assert!(work.iter().all(|&entry| entry == 0) && table == [7; 14]);
    assert_eq!(build(&SET[..8], &mut work, &mut table), Err(Refused::SetLength));
    // 21 before 8
    assert_eq!(build(&with(SET, 7, 0), &mut work[1..], &mut table), Err(Refused::LimitsNothing));
}

#[test]
fn of_tables_and_guards() {
    let length = "the table has fewer than 7 bytes, or its length field isn't the count of bytes after it";
    let states = "the table's count of states is 0 or above 32768, its length field isn't 3 + 4 times that count, \
                  or a next state or the guard's state isn't below it";
    let cases: [(&[u8], u8, &str); 5] = [
        (&[], 10, length),
        (&TABLE[..14], 10, length),
        (&with(TABLE, 4, 0), 11, "the table's version isn't 1"),
        (&with(TABLE, 6, 3), 12, states),
        (&with(TABLE, 8, 2), 12, states),
    ];
    let guard = Guard::default();
    for (table, number, words) in cases {
        says(check_table(table).unwrap_err(), number, 0, words);
        says(Guard::start(table).unwrap_err(), number, 0, words);
        says(guard.ask(table).unwrap_err(), number, 0, words);
        says(guard.tell(table, HIT).unwrap_err(), number, 0, words);
    }
    says(Guard { state: 2, ..lost() }.ask(&TABLE).unwrap_err(), 12, 0, states);
}

#[test]
fn of_outcomes() {
    says(judge(&SET, &[0, 0, 1, 2, 255]).unwrap_err(), 13, 3, "the outcome at place 3 is neither 0 nor 1");
    assert_eq!(judge(&with(SET, 7, 0), &[2]), Err(Refused::LimitsNothing)); // 21 before 13
    says(lost().tell(&TABLE, 2).unwrap_err(), 13, 0, "the outcome at place 0 is neither 0 nor 1");
}

/// 13 before 17, and 17 of a lost guard too. Asked it is as before.
#[test]
fn of_counts() {
    let words = "the guard was told 18446744073709551615 outcomes already and can count no further: start a new guard";
    for guard in [Guard::default(), lost()].map(|guard| Guard { count: u64::MAX, ..guard }) {
        says(guard.tell(&TABLE, HIT).unwrap_err(), 17, 0, words);
        assert_eq!(guard.tell(&TABLE, 2), Err(Refused::Outcome { place: 0 }));
        assert!(guard.ask(&TABLE).is_ok());
        let mut jobs = [guard; 2];
        says(row::tell(&mut jobs, 1, &TABLE, MISS).unwrap_err(), 17, 0, words);
        assert_eq!(jobs, [guard; 2]);
        let last = Guard { count: u64::MAX - 1, ..guard };
        assert_eq!(last.tell(&TABLE, HIT), Ok(guard));
    }
}

/// No slice is so long that a call would say so.
#[test]
fn of_patterns_that_are_too_long() {
    says(Refused::PatternLength, 26, 0, "the pattern has more than 9223372036854775807 outcomes");
}

#[test]
fn of_rows() {
    let words = "the job's number isn't below the row's count of guards, or the row has more than 16";
    let stands = lost();
    for (count, job) in [(0, 0), (3, 3), (3, usize::MAX), (MOST_GUARDS + 1, 0)] {
        let mut guards = [stands; MOST_GUARDS + 1];
        let jobs = &mut guards[..count];
        says(row::start(jobs, job, &[]).unwrap_err(), 14, 0, words);
        says(row::ask(jobs, job, &[]).unwrap_err(), 14, 0, words);
        says(row::tell(jobs, job, &[], 2).unwrap_err(), 14, 0, words);
        assert_eq!(guards, [stands; MOST_GUARDS + 1]);
    }
    let mut jobs = [stands; 3];
    assert_eq!(row::start(&mut jobs, 1, &TABLE[..14]), Err(Refused::TableLength));
    assert_eq!(row::tell(&mut jobs, 1, &TABLE, 2), Err(Refused::Outcome { place: 0 }));
    assert_eq!(jobs, [stands; 3]);
}

#[test]
fn of_written_records() {
    let mut record = [7; 37];
    let guard = lost();
    says(
        guard.write_record(&SET, &mut record).unwrap_err(),
        9,
        38,
        "the buffer is shorter than the 38 bytes to be written",
    );
    assert_eq!(guard.write_record(&SET[..8], &mut record), Err(Refused::SetLength)); // the set before the buffer
    assert_eq!(guard.write_record(&with(SET, 8, 17), &mut []), Err(Refused::LimitK { limit: 0 }));
    assert_eq!(guard.write_record(&with(SET, 7, 0), &mut []), Err(Refused::LimitsNothing)); // 21 before 9
    assert_eq!(record, [7; 37]);
}

#[test]
fn of_records() {
    let words =
        "the version of the record is neither 1 nor 2, it has fewer than 29 bytes (version 1: 25), or its length \
                 field isn't the count of bytes after it: it was cut short or is no record, so start a new guard";
    let mut record = [0; 38];
    assert_eq!(lost().write_record(&SET, &mut record), Ok(38));
    let refused = |record: &[u8], table: &[u8]| Guard::read_record(record, table).unwrap_err();
    for length in 0..38 {
        says(refused(&record[..length], &TABLE), 18, 0, words);
    }
    for version in [0, 3, 255] {
        says(refused(&with(record, 4, version), &TABLE), 18, 0, words);
    }
    assert_eq!(refused(&with(record, 9, 2), &[]), Refused::SetVersion);
    assert_eq!(refused(&with(record, 12, 0), &[]), Refused::LimitsNothing);
    says(refused(&with(record, 28, 2), &[]), 13, 14, "the outcome at place 14 is neither 0 nor 1");
    let words = "the lost byte of the record is neither 0 nor 1: its bytes were changed, so start a new guard";
    says(refused(&with(record, 37, 2), &[]), 19, 0, words);
    assert_eq!(refused(&record, &TABLE[..14]), Refused::TableLength);
    let words =
        "the outcomes of the record can't be walked on the table: build the table from the set that the record \
                 carries, or, if it was, the record's bytes were changed, so start a new guard";
    says(refused(&with(record, 27, 0), &TABLE), 25, 0, words);
}

/// Of version 1: 20 before 13, and the place in 13 among its own 11 outcomes.
#[test]
fn of_old_records() {
    let record: [u8; 34] = [&[0, 0, 0, 30, 1][..], &SET, &[1; 11], &[0; 9]].concat().try_into().unwrap();
    assert_eq!(Guard::read_record(&record, &TABLE), Ok(Guard::default()));
    let refused = |record: &[u8]| Guard::read_record(record, &TABLE).unwrap_err();
    let words =
        "the record has version 1, and its set has a window of more than 12 jobs: a record of version 1 can only \
                 be of shorter ones, so start a new guard";
    let longer = with(record, 13, 13);
    says(refused(&longer), 20, 0, words);
    assert_eq!(refused(&with(longer, 24, 2)), Refused::OldRecord);
    assert_eq!(refused(&with(longer, 13, 17)), Refused::LimitK { limit: 0 });
    assert_eq!(refused(&with(longer, 12, 0)), Refused::LimitsNothing); // 21 before 20
    assert_eq!(refused(&with(record, 24, 2)), Refused::Outcome { place: 10 });
    assert_eq!(refused(&record[..33]), Refused::Record);
    assert_eq!(refused(&with(record, 4, 2)), Refused::SetLength); // its set would end four bytes earlier
}

#[test]
fn of_logs() {
    let log = "the log has fewer than 9 bytes, its length field isn't the count of bytes after it, its version \
               isn't 1, or its length field isn't 5 and the bytes that its count of outcomes takes; \
               or the pattern has more than 4294967295 outcomes";
    let unused = "the unused low bits of the log's last byte aren't all zero";
    let spoilt = with(LOG, 9, 0b1101_0001);
    let cases: [(&[u8], u8, &str); 9] = [
        (&[], 15, log),
        (&[0, 0, 0, 4, 1, 0, 0, 0], 15, log),
        (&LOG[..9], 15, log),
        (&with(LOG, 3, 5), 15, log),
        (&with(LOG, 4, 2), 15, log),
        (&with(LOG, 8, 0), 15, log),
        (&with(LOG, 8, 9), 15, log),
        (&with(spoilt, 4, 2), 15, log), // 15 before 16
        (&spoilt, 16, unused),
    ];
    for (log, number, words) in cases {
        says(LogReader::open(log).unwrap_err(), number, 0, words);
        says(judge_log(&SET, log).unwrap_err(), number, 0, words);
        assert_eq!(judge_log(&SET[..8], log), Err(Refused::SetLength)); // the set before the log
    }
    assert_eq!(judge_log(&with(SET, 7, 3), &[]), Err(Refused::LimitX { limit: 0 }));
    assert_eq!(judge_log(&with(SET, 7, 0), &[]), Err(Refused::LimitsNothing)); // 21 before 15
}

#[test]
fn of_written_logs() {
    let mut out = [7; 10];
    says(write_log(&[1, 0, 2, 255], &mut []).unwrap_err(), 13, 2, "the outcome at place 2 is neither 0 nor 1");
    says(write_log(&[1; 9], &mut out).unwrap_err(), 9, 11, "the buffer is shorter than the 11 bytes to be written");
    assert_eq!(out, [7; 10]);
    assert_eq!(write_log(zeros(1 << 32), &mut []), Err(Refused::Log)); // 15 before 9
}

/// So many zeros, for which the system sets no memory aside as long as nobody reads them.
fn zeros(length: usize) -> &'static [u8] {
    extern "C" {
        fn mmap(at: *mut u8, length: usize, access: i32, flags: i32, file: i32, offset: i64) -> *mut u8;
    }
    const READ: i32 = 1;
    const PRIVATE_ANONYMOUS_NORESERVE: i32 = 0x4022;
    let bytes = unsafe { mmap(std::ptr::null_mut(), length, READ, PRIVATE_ANONYMOUS_NORESERVE, -1, 0) };
    assert_ne!(bytes as isize, -1);
    unsafe { std::slice::from_raw_parts(bytes, length) }
}

#[test]
fn of_comparisons() {
    let bad = with(SET, 8, 17);
    let first = compare(&bad, &[]).unwrap_err();
    assert_eq!(first, RefusedSet::First(Refused::LimitK { limit: 0 }));
    assert_eq!(first.to_string(), "first set: refusal 6: the k of limit 0 isn't 1 to 16 (RowMiss: 0)");
    let second = compare(&SET, &bad).unwrap_err();
    assert_eq!(second, RefusedSet::Second(Refused::LimitK { limit: 0 }));
    assert_eq!(compare(&with(SET, 7, 0), &bad), Err(RefusedSet::First(Refused::LimitsNothing)));
    assert_eq!(second.to_string(), "second set: refusal 6: the k of limit 0 isn't 1 to 16 (RowMiss: 0)");
}

/// `?` turns both kinds into any error.
#[test]
fn as_errors() {
    fn read() -> Result<(), Box<dyn std::error::Error>> {
        let _ = compare(&SET, &SET)?;
        read_set(&[])?;
        Ok(())
    }
    assert!(read().unwrap_err().downcast::<Refused>().is_ok());
}
