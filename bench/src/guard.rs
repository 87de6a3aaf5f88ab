//! A guard that is started, asked and told, alone and in a row, written to a record and read back: on large tables and
//! on the small one of sets/breath.limits.

use std::hint::black_box;
use std::slice::from_ref;

use floelinnet_tests::reference::carry::old_record;
use floelinnet_tests::reference::limits::{width, Limit, OLD_LONGEST_WINDOW};
use floelinnet_tests::reference::sets::bytes;
use floelinnet_tests::reference::table::{LONGEST_TABLE, WORK_ENTRIES};
use floelinnet_tests::{floe, reference};

use crate::clock::{side_by_side, use_up};
use crate::figures::{words, Figure, Figures, Unit};
use crate::plain;
use crate::plain::guard::HELD;

pub fn measure(figures: &mut Figures) {
    let large = [Limit { kind: 0, x: 6, k: 12 }];
    let largest = [Limit { kind: 0, x: 8, k: 16 }];
    let breath = [Limit { kind: 2, x: 2, k: 8 }, Limit { kind: 3, x: 2, k: 0 }];
    asked_and_told(figures, &large);
    asked_and_told(figures, &largest);
    let half_hits = [1, 1, 1, 1, 0, 1, 1, 0, 0, 1, 0, 1, 1, 1, 0];
    carried(figures, &large, half_hits);
    carried(figures, &largest, half_hits);
    carried(figures, &breath, [1, 1, 1, 1, 1, 1, 1, 1, 1, 1, 0, 1, 1, 0, 1]);
}

fn table_of(set: &[u8]) -> Vec<u8> {
    let (mut work, mut table) = (vec![0; WORK_ENTRIES], vec![0; LONGEST_TABLE]);
    let built = floe::builder::build(set, &mut work, &mut table);
    table.truncate(built.length as usize);
    table
}

fn input(limits: &[Limit], table: &[u8]) -> String {
    format!("{}, table of {} states", words(limits), (table.len() - 7) / 4)
}

/// The record of version 1 that holds the newest of the guard's outcomes. It is read where no window is longer than those
/// of that version.
fn record_of_version_1(guard: floe::Guard, limits: &[Limit]) -> Option<Vec<u8>> {
    let floe::Guard { state, lost, outcomes, count } = guard;
    let guard = reference::guard::Guard { state, lost, outcomes, count };
    limits.iter().all(|&limit| width(limit) <= OLD_LONGEST_WINDOW).then(|| old_record(guard, &bytes(limits)))
}

/// What the archive's guard is on the plain side.
fn plain_of(guard: floe::Guard) -> plain::guard::Guard {
    let floe::Guard { state, lost, outcomes, count } = guard;
    plain::guard::Guard { state, lost, outcomes, count }
}

fn asked_and_told(figures: &mut Figures, limits: &[Limit]) {
    let table = table_of(&bytes(limits));
    let table = table.as_slice();
    let guard = floe::guard::start(table).guard;
    assert_eq!(plain_of(guard), plain::guard::NEW);
    assert_eq!(floe::guard::ask(guard, table).answer, 0);
    assert_eq!(plain::guard::ask(plain::guard::NEW, table), Ok((plain::guard::Answer::Normal, plain::guard::NEW)));
    let mut told = guard;
    let (mut state, mut plain_told) = (0, plain::guard::NEW);
    let asked_row = [guard; 16];
    let plain_asked_row = [0; 16];
    let mut row = [guard; 16];
    let (mut state_row, mut plain_row) = ([0; 16], [plain::guard::NEW; 16]);
    assert_eq!(floe::row::ask(&row, 5, table).answer, 0);
    assert_eq!(plain::guard::row_may_miss(&state_row, 5, table), Ok(true));
    for outcome in [0, 1, 0, 0, 1] {
        told = floe::guard::tell(told, table, outcome).guard;
        plain_told = plain::guard::tell(plain_told, table, outcome).expect("it may be told");
        assert_eq!(plain_of(told), plain_told);
    }
    let times = side_by_side(&mut [
        &mut || use_up(floe::guard::ask(black_box(guard), black_box(table))),
        &mut || use_up(plain::guard::may_miss(black_box(table), black_box(0))),
        &mut || told = floe::guard::tell(black_box(told), black_box(table), 1).guard,
        &mut || state = plain::guard::next(black_box(table), black_box(state), 1).expect("a hit is allowed"),
        &mut || plain_told = plain::guard::tell(black_box(plain_told), black_box(table), 1).expect("a hit is allowed"),
        &mut || use_up(floe::row::ask(black_box(&asked_row), black_box(5), black_box(table))),
        &mut || use_up(plain::guard::row_may_miss(black_box(&plain_asked_row), black_box(5), black_box(table))),
        &mut || use_up(floe::row::tell(black_box(&mut row), black_box(5), black_box(table), 1)),
        &mut || use_up(plain::guard::row_next(black_box(&mut state_row), black_box(5), black_box(table), 1)),
        &mut || use_up(plain::guard::row_tell(black_box(&mut plain_row), black_box(5), black_box(table), 1)),
        &mut || use_up(plain::guard::ask(black_box(plain::guard::NEW), black_box(table))),
        &mut || use_up(floe::row::ask(black_box(from_ref(&guard)), 0, black_box(table))),
    ]);
    let (lookup, whole) = ("the same tests and an array lookup", "a plain guard, with its outcomes and its count");
    for (what, archive, beside, plain) in [
        ("guard, ask", 0, lookup, 1),
        ("guard, ask", 0, whole, 10),
        ("guard, ask as a row of one", 11, "floe_guard_ask of the same guard", 0),
        ("guard, tell a hit", 2, lookup, 3),
        ("guard, tell a hit", 2, whole, 4),
        ("row, ask", 5, lookup, 6),
        ("row, tell a hit", 7, lookup, 8),
        ("row, tell a hit", 7, whole, 9),
    ] {
        figures.add(Figure {
            what,
            input: &input(limits, table),
            buffers: "the table, read just before; written is the row's record alone",
            unit: Unit::Nanoseconds,
            archive: times[archive],
            beside,
            plain: times[plain],
        });
    }
}

/// A guard that was told as many outcomes as it holds, so that starting and telling them give all of it.
fn carried(figures: &mut Figures, limits: &[Limit], outcomes: [u8; HELD]) {
    let set = bytes(limits);
    let table = table_of(&set);
    let start_and_tell = || {
        let mut guard = floe::guard::start(black_box(&table)).guard;
        for outcome in outcomes {
            guard = floe::guard::tell(black_box(guard), black_box(&table), outcome).guard;
        }
        guard
    };
    let guard = start_and_tell();
    assert!(guard.state != 0 && !guard.lost && guard.count == HELD as u64, "{guard:?}");
    let mut record = vec![0; floe::carry::write(guard, &set, &mut []).at as usize];
    let mut plain_record = record.clone();
    assert_eq!(floe::carry::write(guard, &set, &mut record).length, record.len() as u64);
    assert_eq!(plain::carry::write(&plain_of(guard), &set, &mut plain_record), Ok(record.len()));
    assert_eq!(record, plain_record);
    assert_eq!(floe::carry::read(&record, &table).guard, guard);
    assert_eq!(plain::carry::read(&record, &table), Ok(plain_of(guard)));
    assert_eq!(plain::guard::start(&table), Ok(plain::guard::NEW));

    let stored = record.clone();
    let plain_guard = plain_of(guard);
    let times = side_by_side(&mut [
        &mut || use_up(floe::guard::start(black_box(&table))),
        &mut || use_up(plain::guard::start(black_box(&table))),
        &mut || use_up(floe::carry::write(black_box(guard), black_box(&set), black_box(&mut record))),
        &mut || use_up(plain::carry::write(black_box(&plain_guard), black_box(&set), black_box(&mut plain_record))),
        &mut || use_up(floe::carry::read(black_box(&stored), black_box(&table))),
        &mut || use_up(plain::carry::read(black_box(&stored), black_box(&table))),
        &mut || use_up(start_and_tell()),
    ]);
    let read = "the table and the record, read just before; none written";
    let started_and_told = format!("floe_guard_start and {HELD} floe_guard_tell");
    for (what, buffers, archive, beside, plain) in [
        ("guard, start", "the table, read just before; none written", 0, "plain check of the table", 1),
        ("write a record", "the record, written; the table isn't used", 2, "plain writer", 3),
        ("read a record back", read, 4, "plain reader", 5),
        ("read a record back", read, 4, &started_and_told, 6),
    ] {
        figures.add(Figure {
            what,
            input: &input(limits, &table),
            buffers,
            unit: Unit::Nanoseconds,
            archive: times[archive],
            beside,
            plain: times[plain],
        });
    }
    let Some(old) = record_of_version_1(guard, limits) else { return };
    assert_eq!(floe::carry::read(&old, &table).guard, guard);
    assert_eq!(plain::carry::read(&old, &table), Ok(plain_guard));
    let times = side_by_side(&mut [&mut || use_up(floe::carry::read(black_box(&old), black_box(&table))), &mut || {
        use_up(plain::carry::read(black_box(&old), black_box(&table)))
    }]);
    figures.add(Figure {
        what: "read a record of version 1 back",
        input: &input(limits, &table),
        buffers: read,
        unit: Unit::Nanoseconds,
        archive: times[0],
        beside: "plain reader",
        plain: times[1],
    });
}
