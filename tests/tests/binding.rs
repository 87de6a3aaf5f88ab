//! The safe face in bindings/rust against the archive's plain records: each of its answers, put back into a record, is
//! the record that the same call gives.

use floelinnet::{log_size, record_size, Comparison, Guard, LogReader, Refused, Verdict, LONGEST_TABLE, WORK_ENTRIES};
use floelinnet_tests::damage::{damage, drawn_table, spoilt_log, spoilt_record, spoilt_set};
use floelinnet_tests::draw::{cases, Draw};
use floelinnet_tests::reference::compare::RefusedSet;
use floelinnet_tests::reference::limits::Limit;
use floelinnet_tests::reference::verdict::Lost;
use floelinnet_tests::reference::{guard, night_log, sets, Refusal};
use floelinnet_tests::{expected, floe};

fn refusal(refused: Refused) -> Refusal {
    Refusal { number: refused.number(), at: refused.at() }
}

fn limit(limit: floelinnet::Limit) -> Limit {
    match limit {
        floelinnet::Limit::AnyHit { x, k } => Limit { kind: 0, x, k },
        floelinnet::Limit::RowHit { x, k } => Limit { kind: 1, x, k },
        floelinnet::Limit::AnyMiss { x, k } => Limit { kind: 2, x, k },
        floelinnet::Limit::RowMiss { x } => Limit { kind: 3, x, k: 0 },
    }
}

fn standing(guard: Guard) -> guard::Guard {
    let Guard { state, lost, outcomes, count } = guard;
    guard::Guard { state, lost, outcomes, count }
}

fn lost(verdict: Verdict) -> Option<Lost> {
    match verdict {
        Verdict::Kept => None,
        Verdict::Lost { job, limit, first } => Some(Lost { job, limit, first }),
    }
}

fn heard(answer: floelinnet::Answer) -> guard::Answer {
    match answer {
        floelinnet::Answer::Normal => guard::Answer::Normal,
        floelinnet::Answer::Panic => guard::Answer::Panic,
        floelinnet::Answer::Lost => guard::Answer::Lost,
    }
}

fn drawn_set(draw: &mut Draw) -> Vec<u8> {
    if draw.one_in(2) {
        spoilt_set(draw)
    } else {
        sets::bytes(&draw.set())
    }
}

#[test]
fn sets_verdicts_and_comparisons() {
    let mut draw = Draw::new(81);
    let mut seen = [0; 22];
    for _ in 0..cases(5_000) {
        let set = drawn_set(&mut draw);
        let answer = floelinnet::read_set(&set).map(|set| set.limits().map(limit).collect());
        assert_eq!(expected::set_read(answer.map_err(refusal)), floe::sets::read_set(&set), "{set:02X?}");

        let jobs = draw.below(16);
        let mut pattern = draw.pattern(jobs, 4);
        if draw.one_in(4) {
            pattern.push(2);
        }
        let answer = floelinnet::judge(&set, &pattern).map(lost);
        let found = floe::verdict::judge(&set, &pattern);
        assert_eq!(expected::verdict(answer.map_err(refusal)), found, "{set:02X?} on {pattern:?}");
        seen[found.refused as usize] += 1;

        let second = drawn_set(&mut draw);
        let answer = floelinnet::compare(&set, &second).map(|comparison| match comparison {
            Comparison::Covers => None,
            Comparison::Between(pattern) => Some(pattern.to_vec()),
        });
        let answer = answer.map_err(|refused| match refused {
            floelinnet::RefusedSet::First(refused) => RefusedSet { which: 1, refusal: refusal(refused) },
            floelinnet::RefusedSet::Second(refused) => RefusedSet { which: 2, refusal: refusal(refused) },
        });
        let found = floe::compare::compare(&set, &second);
        assert_eq!(expected::comparison(answer), found, "{set:02X?} with {second:02X?}");
    }
    assert!([0, 1, 2, 3, 4, 5, 6, 7, 13, 21].iter().all(|&number| seen[number] > 50), "{seen:?}");
}

/// A set made of limits is what the reference writes of them, and what reading those bytes gives.
#[test]
fn sets_made_of_limits() {
    let mut draw = Draw::new(84);
    let mut seen = [0; 22];
    for _ in 0..cases(100_000) {
        let count = draw.below(10);
        let limits: Vec<Limit> = (0..count)
            .map(|_| {
                let Limit { kind, x, k } = draw.limit();
                let strange = draw.one_in(20);
                Limit {
                    kind,
                    x: if strange { draw.byte() } else { x },
                    k: if strange && kind < 3 { draw.byte() } else { k },
                }
            })
            .collect();
        let named: Vec<floelinnet::Limit> = limits
            .iter()
            .map(|&Limit { kind, x, k }| match kind {
                0 => floelinnet::Limit::AnyHit { x, k },
                1 => floelinnet::Limit::RowHit { x, k },
                2 => floelinnet::Limit::AnyMiss { x, k },
                _ => floelinnet::Limit::RowMiss { x },
            })
            .collect();
        let mut places = [Limit { kind: 0, x: 0, k: 0 }; 8];
        places.iter_mut().zip(&limits).for_each(|(place, limit)| *place = *limit);
        let want = sets::write(count as u64, &places, 30);
        let made = floelinnet::LimitSet::new(&named);
        assert_eq!(made.map(|set| set.bytes().to_vec()).map_err(refusal), want, "{named:?}");
        if let Ok(set) = made {
            assert!(set.limits().eq(named), "{set:?}");
            assert_eq!(floelinnet::read_set(set.bytes()), Ok(set));
        }
        seen[want.map_or_else(|refusal| usize::from(refusal.number), |_| 0)] += 1;
    }
    assert!([0, 3, 6, 7, 21].iter().all(|&number| seen[number] > 1000), "{seen:?}");
}

#[test]
fn builds() {
    let mut draw = Draw::new(82);
    let mut seen = [0; 22];
    for _ in 0..cases(1_000) {
        let set = drawn_set(&mut draw);
        let mut work = vec![7; draw.of(&[WORK_ENTRIES - 1, WORK_ENTRIES, WORK_ENTRIES, WORK_ENTRIES + 1])];
        let mut table = vec![7; draw.of(&[0, 20, 100, LONGEST_TABLE])];
        let (mut plain_work, mut plain_table) = (work.clone(), table.clone());
        let answer = floelinnet::build(&set, &mut work, &mut table).map(|length| table[..length].to_vec());
        let found = floe::builder::build(&set, &mut plain_work, &mut plain_table);
        assert_eq!(expected::built(answer.map_err(refusal)), found, "{set:02X?}");
        assert!(work == plain_work && table == plain_table, "{set:02X?}");
        seen[found.refused as usize] += 1;
    }
    assert!([0, 8, 9].iter().all(|&number| seen[number] > 50), "{seen:?}");
}

#[test]
fn tables_guards_and_rows() {
    let mut draw = Draw::new(83);
    let mut seen = [0; 18];
    for _ in 0..cases(50_000) {
        let mut table = drawn_table(&mut draw, 4);
        if draw.one_in(3) {
            damage(&mut draw, &mut table);
        }
        let answer = floelinnet::check_table(&table).map_err(refusal);
        assert_eq!(expected::checked(answer), floe::table::check_table(&table), "{table:02X?}");
        let answer = Guard::start(&table).map(standing).map_err(refusal);
        assert_eq!(expected::started(answer), floe::guard::start(&table), "{table:02X?}");

        let count = draw.of(&[1, 3, 16, 17]);
        let mut row: Vec<Guard> = (0..count).map(|_| expected::guard(draw.guard(5))).collect();
        let mut plain_row = row.clone();
        let job = draw.below(count + 1);
        let outcome = draw.of(&[0, 0, 1, 1, 2]);

        let guard = row[0];
        let answer = guard.ask(&table).map(heard).map_err(refusal);
        assert_eq!(expected::asked(standing(guard), answer), floe::guard::ask(guard, &table), "{guard:?} {table:02X?}");
        let answer = guard.tell(&table, outcome).map(standing).map_err(refusal);
        let found = floe::guard::tell(guard, &table, outcome);
        assert_eq!(expected::told(standing(guard), answer), found, "{guard:?} {outcome} {table:02X?}");

        let shown = format!("job {job} of {row:?}, {outcome}, {table:02X?}");
        let answer = floelinnet::row::tell(&mut row, job, &table, outcome).map_err(refusal);
        let found = floe::row::tell(&mut plain_row, job, &table, outcome);
        assert_eq!((expected::done(answer), &row), (found, &plain_row), "{shown}");
        seen[found.refused as usize] += 1;
        let answer = floelinnet::row::ask(&row, job, &table).map(heard).map_err(refusal);
        assert_eq!(expected::row_asked(answer), floe::row::ask(&plain_row, job, &table), "{shown}");
        let answer = floelinnet::row::start(&mut row, job, &table).map_err(refusal);
        let found = floe::row::start(&mut plain_row, job, &table);
        assert_eq!((expected::done(answer), &row), (found, &plain_row), "{shown}");
    }
    assert!([0, 10, 11, 12, 13, 14, 17].iter().all(|&number| seen[number] > 100), "{seen:?}");
}

#[test]
fn records() {
    assert_eq!(Guard::default(), floe::guard::new());
    let mut draw = Draw::new(86);
    let mut seen = [0; 26];
    for _ in 0..cases(20_000) {
        let guard: Guard = expected::guard(draw.guard(5));
        let set = drawn_set(&mut draw);
        let needed = record_size(set.len());
        let mut record = vec![7; draw.of(&[0, needed - 1, needed, needed, needed + 1])];
        let mut plain_record = record.clone();
        let answer = guard.write_record(&set, &mut record).map(|length| record[..length].to_vec());
        let found = floe::carry::write(guard, &set, &mut plain_record);
        assert_eq!(expected::written(&answer.map_err(refusal)), found, "{guard:?} with {set:02X?}");
        assert_eq!(record, plain_record, "{guard:?} with {set:02X?}");
        seen[found.refused as usize] += 1;

        let record = if draw.one_in(2) { spoilt_record(&mut draw) } else { record };
        let mut table = drawn_table(&mut draw, 4);
        if draw.one_in(4) {
            damage(&mut draw, &mut table);
        }
        let answer = Guard::read_record(&record, &table).map(standing).map_err(refusal);
        let found = floe::carry::read(&record, &table);
        assert_eq!(expected::started(answer), found, "{record:02X?} on {table:02X?}");
        seen[found.refused as usize] += 1;
    }
    let numbers = [0, 1, 2, 3, 4, 5, 6, 7, 9, 10, 11, 12, 13, 18, 19, 20, 21, 25];
    assert!(numbers.iter().all(|&number| seen[number] > 50), "{seen:?}");
}

/// A reader goes on where the plain call says, to the end and past it, and says how many outcomes are left.
#[test]
fn night_logs() {
    let mut draw = Draw::new(85);
    let mut seen = [0; 22];
    for _ in 0..cases(20_000) {
        let jobs = draw.below(40);
        let mut pattern = draw.pattern(jobs, 2);
        if draw.one_in(8) {
            pattern.push(2);
        }
        let needed = log_size(pattern.len());
        let mut log = vec![7; draw.of(&[0, needed - 1, needed, needed, needed + 1])];
        let mut plain_log = log.clone();
        let answer = floelinnet::write_log(&pattern, &mut log).map(|length| log[..length].to_vec());
        let found = floe::log::write(&pattern, &mut plain_log);
        assert_eq!(expected::written(&answer.map_err(refusal)), found, "{pattern:?} into {} bytes", log.len());
        assert_eq!(log, plain_log, "{pattern:?}");
        seen[found.refused as usize] += 1;

        let log = if draw.one_in(2) { spoilt_log(&mut draw) } else { night_log::log(&draw.pattern(jobs, 2)) };
        let answer = LogReader::open(&log).map_err(refusal);
        assert_eq!(expected::log_opened(answer.as_ref().map(drop).map_err(|refusal| *refusal)), floe::log::open(&log));
        if let Ok(mut reader) = answer {
            for left in (0..=reader.len()).rev().chain([0; 3]) {
                assert_eq!(reader.len(), left, "{log:02X?}");
                let found = floe::log::next(reader.place() as u64, &log);
                let answer = reader.next().transpose().map_err(refusal);
                let read = night_log::Read { answer, place: reader.place() as u64 };
                assert_eq!(expected::log_read(read), found, "{log:02X?}");
            }
            assert_eq!(night_log::outcomes(&log).map(|outcomes| outcomes.len()), Ok(reader.place()), "{log:02X?}");
        }

        let set = drawn_set(&mut draw);
        let answer = floelinnet::judge_log(&set, &log).map(lost).map_err(refusal);
        let found = floe::log::judge(&set, &log);
        assert_eq!(expected::verdict(answer), found, "{set:02X?} on {log:02X?}");
        seen[found.refused as usize] += 1;
    }
    assert!([0, 1, 2, 3, 4, 5, 6, 7, 9, 13, 15, 16, 21].iter().all(|&number| seen[number] > 50), "{seen:?}");
}
