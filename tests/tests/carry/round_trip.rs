//! "a guard that was started there, told whatever it was told, written with that set and read back on that table, is the
//! guard that was written, field for field": by the archive alone, which builds the table itself, and by what the
//! reference says of the pattern.

use floelinnet_tests::draw::{cases, Draw};
use floelinnet_tests::floe;
use floelinnet_tests::reference::carry::TAIL;
use floelinnet_tests::reference::guard::HELD;
use floelinnet_tests::reference::limits::{accepted_limits, Limit, LONGEST_WINDOW, OLD_LONGEST_WINDOW};
use floelinnet_tests::reference::table::{LONGEST_TABLE, WORK_ENTRIES};
use floelinnet_tests::reference::{patterns_in_order, sets};

use crate::{walked, Walked};

/// What the archive writes of a guard, in a buffer of the length that it asks for.
fn written(guard: floe::Guard, set: &[u8]) -> Vec<u8> {
    let needed = floe::carry::write(guard, set, &mut []);
    assert_eq!((needed.refused, needed.length), (9, 0), "{guard:?} with {set:02X?}");
    let mut record = vec![7; needed.at as usize];
    let written = floe::carry::write(guard, set, &mut record);
    assert_eq!((written.refused, written.length), (0, needed.at), "{guard:?} with {set:02X?}");
    record
}

/// The guard after a change of the battery.
fn changed(guard: floe::Guard, set: &[u8], table: &[u8]) -> floe::Guard {
    let read = floe::carry::read(&written(guard, set), table);
    assert_eq!((read.refused, read.at), (0, 0), "{guard:?} on {set:02X?}");
    read.guard
}

fn built(set: &[u8]) -> Vec<u8> {
    let (mut table, mut work) = (vec![0; LONGEST_TABLE], vec![0; WORK_ENTRIES]);
    let length = floe::builder::build(set, &mut work, &mut table).length;
    table.truncate(length as usize);
    table
}

fn told(guard: floe::Guard, table: &[u8], outcome: u8) -> floe::Guard {
    let told = floe::guard::tell(guard, table, outcome);
    assert_eq!((told.refused, told.at), (0, 0), "{guard:?} told {outcome}");
    told.guard
}

/// Every pattern of at most so many outcomes. A pattern's guard is told on from that of its beginning, lost ones too.
fn every_pattern(jobs: usize, limit: Limit) {
    let set = sets::bytes(&[limit]);
    let table = built(&set);
    let mut guards = vec![floe::guard::start(&table).guard];
    let mut lost = 0;
    for (place, pattern) in patterns_in_order(jobs).enumerate() {
        let guard = guards[place];
        assert_eq!(changed(guard, &set, &table), guard, "{limit:?} after {pattern:?}");
        assert_eq!(guard.count, pattern.len() as u64);
        lost += usize::from(guard.lost);
        if pattern.len() < jobs {
            guards.extend([0, 1].map(|outcome| told(guard, &table, outcome)));
        }
    }
    assert!(lost > 0, "{limit:?}");
}

/// Under some of the limits, windows of 12 and of 16 jobs among them; and for small tables with one outcome more than a
/// guard holds.
#[test]
fn every_short_pattern() {
    let telling = [(0, 3, 12), (1, 2, 9), (1, 4, 16), (2, 5, 12), (2, 2, 7), (2, 3, 16), (3, 12, 0), (3, 4, 0)];
    telling.into_iter().for_each(|(kind, x, k)| every_pattern(OLD_LONGEST_WINDOW, Limit { kind, x, k }));
    let small = [(3, 16, 0), (1, 2, 6)];
    small.into_iter().for_each(|(kind, x, k)| every_pattern(LONGEST_WINDOW, Limit { kind, x, k }));
}

/// Every limit alone and sets by chance, told so many outcomes that all that are held were told, with misses as dense as
/// the table allows; what is told after a change has no memory of it.
#[test]
fn long_stories() {
    let mut draw = Draw::new(171);
    let alone = accepted_limits().into_iter().map(|limit| vec![limit]);
    let mut lost = 0;
    for limits in alone.chain((0..cases(60)).map(|_| draw.set())).collect::<Vec<_>>() {
        let set = sets::bytes(&limits);
        let table = built(&set);
        let mut never = floe::guard::start(&table).guard;
        let mut changing = never;
        for _ in 0..60 {
            let panic = floe::guard::ask(never, &table).answer == 1;
            let miss = draw.one_in(2) && (!panic || draw.one_in(30));
            never = told(never, &table, u8::from(!miss));
            changing = told(changed(changing, &set, &table), &table, u8::from(!miss));
            assert_eq!(changing, never, "{limits:?}");
        }
        lost += usize::from(never.lost);
    }
    assert!(lost > 30, "{lost}");
}

/// A window of 16 jobs that the oldest outcome held decides: AnyHit(1,16) after a hit and 15 misses is in panic. With
/// one outcome fewer in the record it would be read back before its panic.
#[test]
fn the_oldest_outcome_matters() {
    let set = [0, 0, 0, 5, 1, 1, 0, 1, LONGEST_WINDOW as u8];
    let table = built(&set);
    let mut guard = floe::guard::start(&table).guard;
    for outcome in [1].into_iter().chain([0; HELD]) {
        assert_eq!(floe::guard::ask(guard, &table).answer, 0);
        guard = changed(told(guard, &table, outcome), &set, &table);
    }
    assert_eq!(guard.outcomes, [false; HELD]);
    assert_eq!(floe::guard::ask(guard, &table).answer, 1);
    let mut record = written(guard, &set);
    let oldest = record.len() - TAIL;
    record[oldest] = 1;
    assert_eq!(floe::guard::ask(floe::carry::read(&record, &table).guard, &table).answer, 0);
}

/// A lost guard through a change: state, outcomes and the lost byte stay, and the count goes on.
#[test]
fn lost_guards() {
    let mut draw = Draw::new(172);
    for walked in &walked(&mut draw, 40) {
        let Walked { set, table, .. } = walked;
        let mut guard = floe::guard::start(table).guard;
        while floe::guard::ask(guard, table).answer < 1 {
            guard = told(guard, table, u8::from(draw.one_in(3)));
        }
        let before = guard;
        guard = told(guard, table, 0);
        assert_eq!(guard, floe::Guard { lost: true, count: before.count + 1, ..before });
        for outcome in [1, 0, 1, 1, 0, 0, 1, 1, 1, 1, 1, 1, 1, 1, 1] {
            guard = changed(guard, set, table);
            assert_eq!(floe::guard::ask(guard, table).answer, 2);
            guard = told(guard, table, outcome);
        }
        assert_eq!(guard, floe::Guard { lost: true, count: before.count + 16, ..before });
    }
}

/// At the edge of each width of the count, and at the largest: it is written and read, but a tell is refused by 17.
#[test]
fn counts() {
    let mut draw = Draw::new(173);
    let walked = &walked(&mut draw, 1)[0];
    let Walked { set, table, .. } = walked;
    let mut lost = floe::guard::start(table).guard;
    while !lost.lost {
        lost = told(lost, table, 0);
    }
    let edges = [8, 16, 24, 31, 32, 33, 40, 48, 56, 63].map(|width| 1 << width);
    for edge in edges.into_iter().chain([u64::MAX]) {
        for guard in [floe::guard::start(table).guard, lost] {
            let mut guard = floe::Guard { count: edge - 1, ..guard };
            for outcome in [1, 1] {
                guard = changed(guard, set, table);
                if guard.count < u64::MAX {
                    let before = guard;
                    guard = told(guard, table, outcome);
                    assert_eq!(guard.count, before.count + 1);
                }
            }
            assert_eq!(changed(guard, set, table), guard);
            if edge == u64::MAX {
                assert_eq!(guard.count, u64::MAX);
                for (outcome, refused) in [(0, 17), (1, 17), (2, 13), (255, 13)] {
                    let want = floe::Told { refused, at: 0, guard };
                    assert_eq!(floe::guard::tell(guard, table, outcome), want);
                }
            }
        }
    }
}

/// Two guards with the same set written to equal bytes are equal but for the state; and what is accepted is what the
/// writer writes of the guard read from it.
#[test]
fn one_record_a_guard() {
    let mut draw = Draw::new(174);
    for Walked { set, table, .. } in &walked(&mut draw, 10) {
        for _ in 0..cases(500) {
            let guard = draw.guard(1);
            let guard = floe::Guard { state: 0, lost: guard.lost, outcomes: guard.outcomes, count: guard.count };
            let record = written(guard, set);
            assert_eq!(written(floe::Guard { state: 77, ..guard }, set), record);
            let mut flipped = guard;
            let place = draw.below(HELD);
            flipped.outcomes[place] = !flipped.outcomes[place];
            let others = [
                floe::Guard { lost: !guard.lost, ..guard },
                floe::Guard { count: guard.count ^ 1 << draw.below(64), ..guard },
                flipped,
            ];
            assert!(others.into_iter().all(|other| written(other, set) != record), "{guard:?}");
            let read = floe::carry::read(&record, table);
            if read.refused == 0 {
                assert_eq!(written(read.guard, set), record, "{guard:?}");
            } else {
                assert_eq!(read.refused, 25, "{guard:?}");
            }
        }
    }
}
