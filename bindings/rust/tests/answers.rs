//! Every answer once through the safe face.

use floelinnet::*;

/// AnyHit(1,2), RowHit(2,4), AnyMiss(1,3), RowMiss(2).
const ALL_KINDS: [u8; 18] = [0, 0, 0, 14, 1, 4, 0, 1, 2, 1, 2, 4, 2, 1, 3, 3, 2, 0];
/// After a miss two hits.
const TABLE: [u8; 19] = [0, 0, 0, 15, 1, 0, 3, 0, 1, 0, 0, 0xFF, 0xFF, 0, 2, 0xFF, 0xFF, 0, 0];

#[test]
fn of_read_set() {
    let set = read_set(&ALL_KINDS).unwrap();
    assert_eq!(set.limits().len(), 4);
    let kinds = [
        Limit::AnyHit { x: 1, k: 2 },
        Limit::RowHit { x: 2, k: 4 },
        Limit::AnyMiss { x: 1, k: 3 },
        Limit::RowMiss { x: 2 },
    ];
    assert!(set.limits().eq(kinds), "{set:?}");
    let names: Vec<String> = set.limits().map(|limit| limit.to_string()).collect();
    assert_eq!(names, ["AnyHit(1,2)", "RowHit(2,4)", "AnyMiss(1,3)", "RowMiss(2)"]);
}

#[test]
fn of_sets_made_of_limits() {
    let read = read_set(&ALL_KINDS).unwrap();
    let limits: Vec<Limit> = read.limits().collect();
    let set = LimitSet::new(&limits).unwrap();
    assert_eq!(set, read);
    assert_eq!(set.bytes(), ALL_KINDS);
    assert_eq!(format!("{:?}", LimitSet::new(&limits[3..]).unwrap()), "[RowMiss { x: 2 }]");
    assert_eq!(LimitSet::new(&[limits[1]; MOST_LIMITS]).unwrap().bytes().len(), LONGEST_SET);
}

#[test]
fn of_judge() {
    assert_eq!(judge(&ALL_KINDS, &[]), Ok(Verdict::Kept));
    assert_eq!(judge(&ALL_KINDS, &[1, 0, 1, 1, 0]).unwrap().to_string(), "kept");
    let lost = judge(&ALL_KINDS, &[1, 1, 0, 1, 0]).unwrap();
    assert_eq!(lost, Verdict::Lost { job: 5, limit: 1, first: 2 });
    assert_eq!(lost.to_string(), "lost at job 5 by limit 1, in the window from job 2");
    let all_of_16 = [0, 0, 0, 5, 1, 1, 0, 16, 16];
    let lost = judge(&all_of_16, &[0]).unwrap();
    assert_eq!(lost, Verdict::Lost { job: 1, limit: 0, first: -14 });
    assert_eq!(lost.to_string(), "lost at job 1 by limit 0, in the window from job -14");
}

#[test]
fn of_compare() {
    let any_miss_2_of_5 = [0, 0, 0, 5, 1, 1, 2, 2, 5];
    let any_miss_3_of_7 = [0, 0, 0, 5, 1, 1, 2, 3, 7];
    assert_eq!(compare(&any_miss_2_of_5, &any_miss_2_of_5), Ok(Comparison::Covers));
    let between = |a, b| match compare(a, b) {
        Ok(Comparison::Between(pattern)) => pattern,
        other => panic!("{other:?}"),
    };
    let pattern = between(&any_miss_2_of_5, &any_miss_3_of_7);
    assert_eq!(*pattern, [0, 0, 1, 1, 1, 0, 0]);
    assert_eq!(format!("{pattern:?}"), "[0, 0, 1, 1, 1, 0, 0]");
    assert_eq!(judge(&any_miss_3_of_7, &pattern), Ok(Verdict::Lost { job: 7, limit: 0, first: 1 }));
    assert_eq!(*between(&any_miss_3_of_7, &any_miss_2_of_5), [0, 0, 0]);
    // A pattern as long as the longest window.
    let (row_miss_16, any_miss_14_of_16) = ([0, 0, 0, 5, 1, 1, 3, 16, 0], [0, 0, 0, 5, 1, 1, 2, 14, 16]);
    assert_eq!(*between(&row_miss_16, &any_miss_14_of_16), [0; 15]);
    let any_miss_15_of_16 = [0, 0, 0, 5, 1, 1, 2, 15, 16];
    assert_eq!(compare(&row_miss_16, &any_miss_15_of_16), Ok(Comparison::Covers));
    let pattern = between(&[0, 0, 0, 5, 1, 1, 2, 2, 15], &[0, 0, 0, 5, 1, 1, 2, 2, 16]);
    assert_eq!(*pattern, [0, 0, 1, 1, 1, 1, 1, 1, 1, 1, 1, 1, 1, 1, 1, 0]);
}

#[test]
fn of_build_and_check() {
    let mut work = vec![7; WORK_ENTRIES];
    let mut table = vec![7; LONGEST_TABLE];
    let length = build(&ALL_KINDS, &mut work, &mut table).unwrap();
    assert_eq!(table[..length], TABLE);
    assert!(table[length..].iter().all(|&byte| byte == 7));
    assert!(work.iter().all(|&entry| entry == 0));
    assert_eq!(check_table(&table[..length]), Ok(3));

    // 8 of 16: the most states that one limit has.
    let length = build(&[0, 0, 0, 5, 1, 1, 0, 8, 16], &mut work, &mut table).unwrap();
    assert_eq!(check_table(&table[..length]), Ok(12_870));
}

/// The guard is a value: each copy goes its own way.
#[test]
fn of_guards() {
    let fresh = Guard::start(&TABLE).unwrap();
    assert_eq!(fresh, Guard { state: 0, lost: false, outcomes: [true; HELD], count: 0 });
    assert_eq!(fresh, Guard::default());
    let missed = fresh.tell(&TABLE, MISS).unwrap();
    let lost = missed.tell(&TABLE, MISS).unwrap();
    let met = missed.tell(&TABLE, HIT).unwrap();
    assert_eq!(missed, Guard { state: 1, lost: false, outcomes: held(&[MISS]), count: 1 });
    // Lost, it keeps state and outcomes from before, and counts on.
    assert_eq!(lost, Guard { lost: true, count: 2, ..missed });
    assert_eq!(lost.tell(&TABLE, HIT), Ok(Guard { count: 3, ..lost }));
    assert_eq!(met, Guard { state: 2, lost: false, outcomes: held(&[MISS, HIT]), count: 2 });
    let back = (0..HELD).fold(met, |guard, _| guard.tell(&TABLE, HIT).unwrap());
    assert_eq!(back, Guard { count: 2 + HELD as u64, ..fresh });
    let hears = |guard: Guard| guard.ask(&TABLE).unwrap();
    assert_eq!([fresh, missed, met, lost].map(hears), [Answer::Normal, Answer::Panic, Answer::Panic, Answer::Lost]);
    assert_eq!([fresh, missed, lost].map(|guard| hears(guard).to_string()), ["normal", "panic", "lost"]);
    assert_eq!(format!("{:8}|", hears(missed)), "panic   |");
}

/// What a guard holds that was told these outcomes: hits before them.
fn held(told: &[u8]) -> [bool; HELD] {
    let mut held = [true; HELD];
    held[HELD - told.len()..].iter_mut().zip(told).for_each(|(place, &outcome)| *place = outcome == HIT);
    held
}

#[test]
fn of_rows() {
    let mut jobs = [Guard::default(); MOST_GUARDS];
    row::tell(&mut jobs, 3, &TABLE, MISS).unwrap();
    row::tell(&mut jobs, 15, &TABLE, MISS).unwrap();
    row::tell(&mut jobs, 15, &TABLE, MISS).unwrap();
    let mut want = [Guard::default(); MOST_GUARDS];
    want[3] = Guard { state: 1, lost: false, outcomes: held(&[MISS]), count: 1 };
    want[15] = Guard { lost: true, count: 2, ..want[3] };
    assert_eq!(jobs, want);
    let hears = [0, 3, 15].map(|job| row::ask(&jobs, job, &TABLE).unwrap());
    assert_eq!(hears, [Answer::Normal, Answer::Panic, Answer::Lost]);
    row::start(&mut jobs, 15, &TABLE).unwrap();
    want[15] = Guard::default();
    assert_eq!(jobs, want);
}

/// After every pattern of up to 10 jobs the guard comes back from its record, and goes on as if nothing had been.
#[test]
fn of_records() {
    for jobs in 0..=10 {
        for number in 0..1 << jobs {
            let pattern: Vec<u8> = (0..jobs).rev().map(|bit| (number >> bit) as u8 & 1).collect();
            let tell = |guard: Guard, &outcome: &u8| guard.tell(&TABLE, outcome).unwrap();
            let guard = pattern.iter().fold(Guard::start(&TABLE).unwrap(), tell);
            let mut record = [7; LONGEST_RECORD];
            let length = guard.write_record(&ALL_KINDS, &mut record).unwrap();
            assert_eq!(length, record_size(ALL_KINDS.len()));
            assert_eq!(record[length..], [7; LONGEST_RECORD][length..]);
            assert_eq!(Guard::read_record(&record[..length], &TABLE), Ok(guard), "{pattern:?}");
            let old = old_record(&ALL_KINDS, guard);
            assert_eq!(old.len(), old_record_size(ALL_KINDS.len()));
            assert_eq!(Guard::read_record(&old, &TABLE), Ok(guard), "{pattern:?}");
        }
    }
}

/// What was written of this guard before 0.7.0: version 1, and the last 11 outcomes.
fn old_record(set: &[u8], guard: Guard) -> Vec<u8> {
    let outcomes = guard.outcomes[HELD - 11..].iter().map(|&hit| u8::from(hit));
    let rest: Vec<u8> = [1].into_iter().chain(set.iter().copied()).chain(outcomes).collect();
    let tail = [&guard.count.to_be_bytes()[..], &[u8::from(guard.lost)]].concat();
    let length = (rest.len() + tail.len()) as u32;
    [&length.to_be_bytes()[..], &rest, &tail].concat()
}

#[test]
fn of_a_records_bytes() {
    let one_of_two = [0, 0, 0, 5, 1, 1, 0, 1, 2];
    let guard = Guard { state: 1, lost: true, outcomes: held(&[MISS, HIT, HIT, MISS]), count: 0x0102_0304_0506_0708 };
    let mut record = [7; 40];
    assert_eq!(guard.write_record(&one_of_two, &mut record), Ok(38));
    let want = [
        &[0, 0, 0, 34, 2][..],
        &one_of_two,
        &[1, 1, 1, 1, 1, 1, 1, 1, 1, 1, 1, 0, 1, 1, 0],
        &[1, 2, 3, 4, 5, 6, 7, 8],
        &[1],
        &[7, 7],
    ];
    assert_eq!(record[..], want.concat());
    assert_eq!((record_size(0), old_record_size(0)), (29, 25));
    assert_eq!((HELD, LONGEST_RECORD), (15, 59));
}

/// Every pattern of up to 10 jobs comes back from its log, and is judged there as it is without one.
#[test]
fn of_logs() {
    let mut log = [7; 13];
    assert_eq!(write_log(&[1, 0, 1, 1, 0, 1, 1, 1, 1, 0], &mut log), Ok(11));
    assert_eq!(log, [0, 0, 0, 7, 1, 0, 0, 0, 10, 0b1011_0111, 0b1000_0000, 7, 7]);
    for jobs in 0..=10 {
        for number in 0..1 << jobs {
            let pattern: Vec<u8> = (0..jobs).rev().map(|bit| (number >> bit) as u8 & 1).collect();
            let mut log = vec![7; log_size(jobs)];
            assert_eq!(write_log(&pattern, &mut log), Ok(log_size(jobs)));
            let read: Result<Vec<u8>, Refused> = LogReader::open(&log).unwrap().collect();
            assert_eq!(read.as_ref(), Ok(&pattern));
            assert_eq!(judge_log(&ALL_KINDS, &log), judge(&ALL_KINDS, &pattern));
        }
    }
}

#[test]
fn of_log_readers() {
    let log = [0, 0, 0, 7, 1, 0, 0, 0, 9, 0b1101_0110, 0b1000_0000];
    let mut reader = LogReader::open(&log).unwrap();
    for (place, outcome) in [1, 1, 0, 1, 0, 1, 1, 0, 1].into_iter().enumerate() {
        assert_eq!((reader.place(), reader.len()), (place, 9 - place));
        assert_eq!(reader.clone().count(), 9 - place);
        assert_eq!(reader.next(), Some(Ok(outcome)));
    }
    for _ in 0..10 {
        assert_eq!(reader.next(), None);
        assert_eq!((reader.place(), reader.len()), (9, 0));
    }
    assert_eq!(LogReader::open(&log).unwrap().nth(8), Some(Ok(HIT)));
    assert_eq!(LogReader::open(&log).unwrap().nth(9), None);
    assert_eq!(LogReader::open(&[0, 0, 0, 5, 1, 0, 0, 0, 0]).unwrap().next(), None);
    assert_eq!(log_size(usize::MAX), 9 + (1 << 61));
}
