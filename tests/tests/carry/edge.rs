//! What is lent ends where memory ends: a read or a write past it would end the test.

use floelinnet_tests::damage::{damage, drawn_table, spoilt_record, spoilt_set};
use floelinnet_tests::draw::{cases, Draw};
use floelinnet_tests::memory::Edge;
use floelinnet_tests::reference::carry::{HEAD, TAIL};
use floelinnet_tests::reference::{carry, sets};
use floelinnet_tests::{expected, floe};

/// A record of either version that is accepted or spoilt, or any beginning of one.
fn drawn_record(draw: &mut Draw) -> Vec<u8> {
    if draw.one_in(3) {
        return spoilt_record(draw);
    }
    let (guard, set) = (draw.guard(1), sets::bytes(&draw.set()));
    let mut record = if draw.one_in(2) { carry::record(guard, &set) } else { carry::old_record(guard, &set) };
    if draw.one_in(4) {
        record.truncate(draw.below(record.len() + 1));
    }
    record
}

#[test]
fn reading() {
    let mut draw = Draw::new(191);
    let (mut record_edge, mut table_edge) = (Edge::new(4096), Edge::new(4096));
    let mut seen = [0; 26];
    for _ in 0..cases(10_000) {
        let record = drawn_record(&mut draw);
        let mut table = drawn_table(&mut draw, 6);
        if draw.one_in(4) {
            damage(&mut draw, &mut table);
        }
        let want = expected::started(carry::read(&record, &table));
        let found = floe::carry::read(record_edge.lend(&record), table_edge.lend(&table));
        assert_eq!(found, want, "{record:02X?} on {table:02X?}");
        seen[found.refused as usize] += 1;
    }
    assert!([0, 10, 12, 18, 20, 25].iter().all(|&number| seen[number] > 100), "{seen:?}");
}

#[test]
fn writing() {
    let mut draw = Draw::new(192);
    let (mut set_edge, mut record_edge) = (Edge::new(4096), Edge::new(4096));
    let mut seen = [0; 22];
    for _ in 0..cases(10_000) {
        let set = if draw.one_in(3) { spoilt_set(&mut draw) } else { sets::bytes(&draw.set()) };
        let needed = HEAD + TAIL + set.len();
        let room = draw.of(&[0, 9, needed - 1, needed, needed, needed + 1]);
        let mut want: Vec<u8> = (0..room).map(|_| draw.byte()).collect();
        let lent = record_edge.lend(&want);
        let guard = draw.guard(6);
        let answer = carry::write(guard, &set, &mut want);
        let written = floe::carry::write(expected::guard(guard), set_edge.lend(&set), lent);
        assert_eq!(written, expected::written(&answer), "{guard:?} with {set:02X?} into {room} bytes");
        assert_eq!(lent, want, "{guard:?} with {set:02X?} into {room} bytes");
        seen[written.refused as usize] += 1;
    }
    assert!([0, 1, 9].iter().all(|&number| seen[number] > 100), "{seen:?}");
}
