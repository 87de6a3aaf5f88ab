//! floe_carry_read: what is refused, by which number, and the guard that is read.

use floelinnet_tests::damage::{damage, drawn_table, mend_length, spoilt_record};
use floelinnet_tests::draw::{cases, Draw};
use floelinnet_tests::reference::carry::{HEAD, OLD_HELD, OLD_TAIL, TAIL};
use floelinnet_tests::reference::guard::{tell, Guard, FRESH, HELD};
use floelinnet_tests::reference::limits::OLD_LONGEST_WINDOW;
use floelinnet_tests::reference::table::{bytes, State};
use floelinnet_tests::reference::{carry, sets};
use floelinnet_tests::{expected, floe};

use crate::{walked, walked_within, Walked};

/// Both answers agree; gives the number of the refusal.
fn agree(record: &[u8], table: &[u8]) -> usize {
    let want = expected::started(carry::read(record, table));
    assert_eq!(floe::carry::read(record, table), want, "read {record:02X?} on {table:02X?}");
    want.refused as usize
}

/// AnyHit(1,2).
const SET: &[u8] = &[0, 0, 0, 5, 1, 1, 0, 1, 2];
const TABLE: &[u8] = &[0, 0, 0, 0x0B, 1, 0, 2, 0, 1, 0, 0, 0xFF, 0xFF, 0, 0];
/// A table that is of no set: every pattern is walked.
const ALL_WALKED: &[u8] = &[0, 0, 0, 7, 1, 0, 1, 0, 0, 0, 0];

/// A record with this set, with outcomes and count as written and with this lost byte: of version 1 with eleven outcomes,
/// else of version 2.
fn record(set: &[u8], outcomes: &str, count: [u8; 8], lost: u8) -> Vec<u8> {
    let mut record = vec![0, 0, 0, 0, if outcomes.len() == OLD_HELD { 1 } else { 2 }];
    record.extend(set);
    record.extend(outcomes.bytes().map(|digit| digit - b'0'));
    record.extend(count);
    record.push(lost);
    mend_length(&mut record);
    record
}

/// The record with one byte changed.
fn with(mut record: Vec<u8>, place: usize, byte: u8) -> Vec<u8> {
    record[place] = byte;
    record
}

const NONE: [u8; 8] = [0; 8];

/// So many bytes of this version with a true length field, too few for a record and a set.
fn short(length: usize, version: u8) -> Vec<u8> {
    let mut bytes = vec![1; length];
    bytes.iter_mut().skip(4).take(1).for_each(|byte| *byte = version);
    mend_length(&mut bytes);
    bytes
}

/// A table of so many states, of which a hit leads from each to the next, and no miss is allowed.
fn ring(states: usize) -> Vec<u8> {
    bytes(&(0..states).map(|state| State { miss: None, hit: (state + 1) % states }).collect::<Vec<_>>())
}

/// Records worked out by hand: the table, and the guard's state, lost, and count, or what it is refused by and the value
/// beside it.
#[test]
fn worked() {
    let of = |outcomes, count, lost| record(SET, outcomes, count, lost);
    let (fresh, old) = (of("111111111111111", NONE, 0), of("11111111111", NONE, 0));
    let ring = ring(16);
    type Want = Result<(u16, bool, u64), (u64, u64)>;
    let rows: Vec<(Vec<u8>, &[u8], Want)> = vec![
        (fresh.clone(), TABLE, Ok((0, false, 0))),
        (of("111111111111110", [0, 0, 0, 0, 0, 0, 0, 1], 0), TABLE, Ok((1, false, 1))),
        (of("011111111111111", [0, 0, 0, 0, 0, 0, 0, 15], 0), TABLE, Ok((0, false, 15))),
        (of("010101010101010", [1, 2, 3, 4, 5, 6, 7, 8], 0), TABLE, Ok((1, false, 0x0102_0304_0506_0708))),
        (of("111111111111110", [0, 0, 0, 0, 0, 0, 0, 2], 1), TABLE, Ok((1, true, 2))),
        (of("111111111111111", [255; 8], 0), TABLE, Ok((0, false, u64::MAX))),
        // Version 1: hits in the places of the four older outcomes.
        (old.clone(), TABLE, Ok((0, false, 0))),
        (of("11111111110", [0, 0, 0, 0, 0, 0, 0, 1], 0), TABLE, Ok((1, false, 1))),
        (of("01111111111", [0, 0, 0, 0, 0, 0, 0, 11], 0), TABLE, Ok((0, false, 11))),
        (of("01010101010", [1, 2, 3, 4, 5, 6, 7, 8], 0), TABLE, Ok((1, false, 0x0102_0304_0506_0708))),
        (of("11111111110", [0, 0, 0, 0, 0, 0, 0, 2], 1), TABLE, Ok((1, true, 2))),
        (of("11111111111", [255; 8], 0), TABLE, Ok((0, false, u64::MAX))),
        // "A record whose count, outcomes and lost byte don't fit each other isn't refused for that."
        (of("111111111111110", NONE, 0), TABLE, Ok((1, false, 0))),
        (of("111111111111111", NONE, 1), TABLE, Ok((0, true, 0))),
        (of("01010101010", [0, 0, 0, 0, 0, 0, 0, 1], 1), TABLE, Ok((1, true, 1))),
        // Another table than the set's. On one of sixteen states in a ring the hits before eleven outcomes are walked too.
        (of("000000000000000", NONE, 0), ALL_WALKED, Ok((0, false, 0))),
        (of("00000000000", NONE, 0), ALL_WALKED, Ok((0, false, 0))),
        (of("111111111111111", NONE, 0), &ring, Ok((15, false, 0))),
        (of("11111111111", NONE, 0), &ring, Ok((15, false, 0))),
        // 18: other versions, lengths and length fields.
        (vec![], TABLE, Err((18, 0))),
        (with(fresh.clone(), 4, 0), TABLE, Err((18, 0))),
        (with(fresh.clone(), 4, 3), TABLE, Err((18, 0))),
        (with(fresh.clone(), 4, 255), TABLE, Err((18, 0))),
        (with(fresh.clone(), 3, 35), TABLE, Err((18, 0))),
        (with(fresh.clone(), 0, 1), TABLE, Err((18, 0))),
        (with(old.clone(), 4, 0), TABLE, Err((18, 0))),
        (with(old.clone(), 4, 3), TABLE, Err((18, 0))),
        (with(old.clone(), 3, 31), TABLE, Err((18, 0))),
        // 29 bytes are enough for 18, with version 1 it is 25, and there are no bytes of a set.
        (short(28, 2), TABLE, Err((18, 0))),
        (short(29, 2), TABLE, Err((1, 0))),
        (short(24, 1), TABLE, Err((18, 0))),
        (short(25, 1), TABLE, Err((1, 0))),
        (short(28, 1), TABLE, Err((1, 0))),
        (short(25, 2), TABLE, Err((18, 0))),
        (short(4, 1), TABLE, Err((18, 0))),
        // The other version on a whole record: the set would begin at the same place and end elsewhere.
        (with(fresh.clone(), 4, 1), TABLE, Err((1, 0))),
        (with(old.clone(), 4, 2), TABLE, Err((1, 0))),
        // The set's bytes, with the limit's number.
        (record(&SET[..8], "111111111111111", NONE, 0), TABLE, Err((1, 0))),
        (record(&SET[..8], "11111111111", NONE, 0), TABLE, Err((1, 0))),
        (record(&[0, 0, 0, 8, 1, 2, 0, 1, 2, 0, 3, 2], "111111111111111", NONE, 0), TABLE, Err((7, 1))),
        (record(&[0, 0, 0, 8, 1, 2, 0, 1, 16, 0, 1, 17], "11111111111", NONE, 0), TABLE, Err((6, 1))),
        // Limits that limit nothing: 21 comes before a window of 13 jobs is looked at.
        (record(&[0, 0, 0, 5, 1, 1, 2, 12, 12], "111111111111111", NONE, 0), TABLE, Err((21, 0))),
        (record(&[0, 0, 0, 5, 1, 1, 1, 0, 13], "11111111111", NONE, 0), TABLE, Err((21, 0))),
        // A window of 13 jobs.
        (record(&[0, 0, 0, 5, 1, 1, 0, 1, 13], "111111111111111", NONE, 0), TABLE, Ok((0, false, 0))),
        (record(&[0, 0, 0, 5, 1, 1, 0, 1, 13], "11111111111", NONE, 0), TABLE, Err((20, 0))),
        (record(&[0, 0, 0, 5, 1, 1, 0, 1, 12], "11111111111", NONE, 0), TABLE, Ok((0, false, 0))),
        // An outcome that is none, by its number among the outcomes of the record.
        (of("211111111111111", NONE, 0), TABLE, Err((13, 0))),
        (of("111111111111112", NONE, 0), TABLE, Err((13, 14))),
        (of("111311111111114", NONE, 0), TABLE, Err((13, 3))),
        (of("21111111111", NONE, 0), TABLE, Err((13, 0))),
        (of("11111111112", NONE, 0), TABLE, Err((13, 10))),
        (of("111111111111111", NONE, 2), TABLE, Err((19, 0))),
        (of("11111111111", NONE, 2), TABLE, Err((19, 0))),
        (fresh, &TABLE[..14], Err((10, 0))),
        (old, &TABLE[..14], Err((10, 0))),
        // Two misses in a row, first, last and between.
        (of("001111111111111", NONE, 0), TABLE, Err((25, 0))),
        (of("111111111111100", NONE, 0), TABLE, Err((25, 0))),
        (of("111100111111111", NONE, 1), TABLE, Err((25, 0))),
        (of("00111111111", NONE, 0), TABLE, Err((25, 0))),
        (of("11111111100", NONE, 0), TABLE, Err((25, 0))),
    ];
    for (record, table, want) in rows {
        agree(&record, table);
        let found = floe::carry::read(&record, table);
        let guard = found.guard;
        match want {
            Ok(fields) => {
                assert_eq!((found.refused, found.at), (0, 0), "{record:02X?}");
                assert_eq!((guard.state, guard.lost, guard.count), fields, "{record:02X?}");
                let own = &record[14..record.len() - 9];
                assert_eq!(
                    guard.outcomes.map(u8::from),
                    [&vec![1; HELD - own.len()], own].concat()[..],
                    "{record:02X?}"
                );
            }
            Err(refusal) => {
                assert_eq!((found.refused, found.at), refusal, "{record:02X?}");
                let fresh = floe::Guard { state: 0, lost: false, outcomes: [true; HELD], count: 0 };
                assert_eq!(guard, fresh, "{record:02X?}");
            }
        }
    }
}

/// A record cut short at each length, and each longer one. With a true length field what is left between the version and
/// the last 24 bytes, of version 1 the last 20, is no set.
#[test]
fn every_wrong_length() {
    let mut draw = Draw::new(161);
    for walked in &walked(&mut draw, 8) {
        for guard in [FRESH, draw.guard(1)] {
            let records = [
                (carry::record(guard, &walked.set), HEAD + TAIL),
                (carry::old_record(guard, &walked.set), HEAD + OLD_TAIL),
            ];
            for (record, least) in records {
                for length in (0..record.len() + 70).filter(|&length| length != record.len()) {
                    let mut other = record.clone();
                    other.resize_with(length, || draw.byte());
                    assert_eq!(agree(&other, &walked.table), 18);
                    assert_eq!(agree(&other, &[]), 18);
                    mend_length(&mut other);
                    let refused = agree(&other, &walked.table);
                    assert_eq!(refused, if length < least { 18 } else { 1 }, "{other:02X?}");
                }
            }
        }
    }
}

/// Every byte in every place of a whole record, of version 1 too.
#[test]
fn every_byte_changed() {
    const SETS: usize = 8;
    let mut draw = Draw::new(162);
    let mut seen = [0; 26];
    let mut every_byte = |record: Vec<u8>, table: &[u8]| {
        for place in 0..record.len() {
            for byte in 0..=255 {
                seen[agree(&with(record.clone(), place, byte), table)] += 1;
            }
        }
    };
    let told = |draw: &mut Draw, table: &[u8]| {
        let told = draw.pattern(40, 3);
        told.iter().fold(FRESH, |guard, &outcome| tell(guard, table, outcome).unwrap())
    };
    for Walked { set, table, .. } in &walked(&mut draw, SETS) {
        every_byte(carry::record(told(&mut draw, table), set), table);
    }
    for Walked { set, table, .. } in &walked_within(&mut draw, OLD_LONGEST_WINDOW, SETS) {
        every_byte(carry::old_record(told(&mut draw, table), set), table);
    }
    let numbers = [0, 1, 2, 3, 4, 5, 6, 7, 13, 18, 19, 20, 25];
    assert!(numbers.iter().all(|&number| seen[number] > 0), "{seen:?}");
    assert_eq!(seen[19], 2 * SETS * 254);
    assert_eq!(seen[13], SETS * (HELD + OLD_HELD) * 254);
}

/// Faults of the set in a record, each of 1 to 7 and 21, and the value beside each; the last, a window of 13 jobs, is one
/// in a record of version 1 alone.
const SETS: [(&[u8], u64, u64); 11] = [
    (&[0, 0, 0, 8, 1, 2, 0, 1, 2, 3, 2, 0], 0, 0),
    (&[0, 0, 0, 9, 1, 2, 0, 1, 2, 3, 2, 0], 1, 0),
    (&[0, 0, 0, 8, 2, 2, 0, 1, 2, 3, 2, 0], 2, 0),
    (&[0, 0, 0, 8, 1, 0, 0, 1, 2, 3, 2, 0], 3, 0),
    (&[0, 0, 0, 8, 1, 3, 0, 1, 2, 3, 2, 0], 4, 0),
    (&[0, 0, 0, 8, 1, 2, 0, 1, 13, 4, 2, 0], 5, 1),
    (&[0, 0, 0, 8, 1, 2, 0, 1, 13, 3, 2, 1], 6, 1),
    (&[0, 0, 0, 8, 1, 2, 0, 1, 13, 3, 0, 0], 7, 1),
    (&[0, 0, 0, 8, 1, 2, 0, 0, 13, 2, 3, 2], 7, 1),
    (&[0, 0, 0, 8, 1, 2, 0, 0, 13, 2, 2, 2], 21, 0),
    (&[0, 0, 0, 8, 1, 2, 0, 1, 2, 3, 13, 0], 20, 0),
];

/// Tables without a fault and with one of 10, 11 and 12, the last for an entry that no walk of these outcomes meets.
const TABLES: [(&[u8], u64); 5] = [
    (TABLE, 0),
    (&[0, 0, 0, 0x0C, 1, 0, 2, 0, 1, 0, 0, 0xFF, 0xFF, 0, 0], 10),
    (&[0, 0, 0, 0x0B, 2, 0, 2, 0, 1, 0, 0, 0xFF, 0xFF, 0, 0], 11),
    (&[0, 0, 0, 0x0B, 1, 0, 3, 0, 1, 0, 0, 0xFF, 0xFF, 0, 0], 12),
    (&[0, 0, 0, 0x0F, 1, 0, 3, 0, 1, 0, 0, 0xFF, 0xFF, 0, 0, 0, 0, 0, 3], 12),
];

/// "18; then as reading a set, of the set's bytes in it; then 20; then 13 over its outcomes; then 19; then as the table
/// check, the whole table; then 25": every choice of faults, in a record of a lost guard and of one that isn't.
fn every_choice_of_faults(outcomes: [(&str, u64, u64); 4]) -> [usize; 26] {
    let mut seen = [0; 26];
    let heads: [fn(&mut Vec<u8>); 5] =
        [|_| (), |record| record[3] ^= 1, |record| record[4] = 0, |record| record[4] = 3, |record| record.push(0)];
    for (number, head) in heads.iter().enumerate() {
        for (set, set_fault, limit) in SETS {
            for (outcomes, outcomes_fault, place) in outcomes {
                for lost in [0, 1, 2, 255] {
                    for (table, table_fault) in TABLES {
                        let mut record = record(set, outcomes, [255; 8], lost);
                        head(&mut record);
                        let faults = [
                            (number > 0, 18, 0),
                            (![0, 20].contains(&set_fault), set_fault, limit),
                            (set_fault == 20 && outcomes.len() == OLD_HELD, 20, 0),
                            (outcomes_fault == 13, 13, place),
                            (lost > 1, 19, 0),
                            (table_fault > 0, table_fault, 0),
                            (outcomes_fault == 25, 25, 0),
                        ];
                        let first = faults.iter().find(|(present, ..)| *present);
                        let want = first.map_or((0, 0), |&(_, number, at)| (number, at));
                        let found = floe::carry::read(&record, table);
                        assert_eq!((found.refused, found.at), want, "{record:02X?} on {table:02X?}");
                        seen[agree(&record, table)] += 1;
                    }
                }
            }
        }
    }
    seen
}

#[test]
fn every_choice_of_faults_in_both_versions() {
    let new = every_choice_of_faults([
        ("111111111111110", 0, 0),
        ("111111111121110", 13, 10),
        ("111111001111110", 25, 0),
        ("300111111111112", 13, 0),
    ]);
    let old = every_choice_of_faults([
        ("11111111110", 0, 0),
        ("11111121110", 13, 6),
        ("11001111110", 25, 0),
        ("30011111112", 13, 0),
    ]);
    for (seen, with_20) in [(new, 0), (old, 20)] {
        let numbers = [0, 1, 2, 3, 4, 5, 6, 7, 10, 11, 12, 13, 18, 19, with_20, 21, 25];
        assert!(numbers.iter().all(|&number| seen[number] > 0), "{seen:?}");
    }
    assert_eq!(new[20], 0);
}

/// Any bytes on any table, often with several faults at once.
#[test]
fn spoilt_records() {
    let mut draw = Draw::new(163);
    let mut seen = [0; 26];
    for _ in 0..cases(60_000) {
        let record = spoilt_record(&mut draw);
        let mut table = drawn_table(&mut draw, 6);
        if draw.one_in(3) {
            damage(&mut draw, &mut table);
        }
        seen[agree(&record, &table)] += 1;
    }
    let numbers = [0, 1, 2, 3, 4, 5, 6, 7, 10, 11, 12, 13, 18, 19, 20, 21, 25];
    assert!(numbers.iter().all(|&number| seen[number] > 100), "{seen:?}");
}

/// "On any other table reading back gives what the table above says: the state where the walk ends. Whether the record's
/// set is the table's isn't asked."
#[test]
fn on_the_table_of_another_set() {
    let mut draw = Draw::new(164);
    let all = walked(&mut draw, 30);
    let mut seen = [0; 26];
    for _ in 0..cases(20_000) {
        let (own, other) = (&all[draw.below(all.len())], &all[draw.below(all.len())]);
        let jobs = draw.below(30);
        let told = draw.pattern(jobs, 4);
        let guard = told.iter().fold(FRESH, |guard, &outcome| tell(guard, &own.table, outcome).unwrap());
        seen[agree(&carry::record(guard, &own.set), &other.table)] += 1;
        seen[agree(&carry::old_record(guard, &own.set), &other.table)] += 1;
    }
    assert!([0, 20, 25].iter().all(|&number| seen[number] > 1000), "{seen:?}");
}

/// Every guard's outcomes, all 32,768 and of version 1 all 2,048, on a table that walks them all, on one that walks some
/// and on a partner's, lost and not: "A lost guard is tested like any other, and a record of one too, by 25 as well."
#[test]
fn all_outcomes() {
    let mut draw = Draw::new(165);
    let limits = sets::read(&[0, 0, 0, 8, 1, 2, 2, 3, 9, 3, 3, 0]).unwrap();
    let some = Walked::new(limits);
    let partners = some.partners(&mut draw);
    type Writer = fn(Guard, &[u8]) -> Vec<u8>;
    let records: [(usize, Writer); 2] = [(HELD, carry::record), (OLD_HELD, carry::old_record)];
    for (held, record) in records {
        for lost in [false, true] {
            let mut walked = [0; 3];
            for number in 0..1 << held {
                let mut guard = Guard { lost, count: draw.count(), ..FRESH };
                let newest = guard.outcomes.iter_mut().rev().take(held);
                newest.enumerate().for_each(|(place, hit)| *hit = number >> place & 1 == 1);
                let record = record(guard, &some.set);
                for (place, table) in [ALL_WALKED, &some.table, &partners.table].into_iter().enumerate() {
                    walked[place] += usize::from(agree(&record, table) == 0);
                }
            }
            assert_eq!(walked[0], 1 << held);
            assert_eq!(walked[1], walked[2]);
            assert!((100..1 << (held - 1)).contains(&walked[1]), "{walked:?}");
        }
    }
}

/// What the header warns of: a record that is written over the old one and torn in the middle. Many of these pass every
/// test, and some are the record of neither guard.
#[test]
fn torn_writes() {
    let mut draw = Draw::new(166);
    let mut of_neither = 0;
    for Walked { set, table, .. } in &walked(&mut draw, 20) {
        let mut guard = FRESH;
        for _ in 0..100 {
            let old = carry::record(guard, set);
            guard = tell(guard, table, u8::from(!draw.one_in(3))).unwrap();
            let new = carry::record(guard, set);
            for place in 0..=old.len() {
                let torn = [&new[..place], &old[place..]].concat();
                let accepted = agree(&torn, table) == 0;
                of_neither += usize::from(accepted && torn != old && torn != new);
            }
        }
    }
    assert!(of_neither > 1000, "{of_neither}");
}
