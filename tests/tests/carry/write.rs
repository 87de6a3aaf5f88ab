//! floe_carry_write, with all the memory around the buffer looked at afterwards.

use floelinnet_tests::damage::spoilt_set;
use floelinnet_tests::draw::{cases, Draw};
use floelinnet_tests::reference::guard::{Guard, FRESH, HELD};
use floelinnet_tests::reference::limits::{allowed_limits, limits_nothing};
use floelinnet_tests::reference::{carry, sets};
use floelinnet_tests::{expected, floe};

/// Bytes on both sides of the lent buffer that the archive must not reach.
const MARGIN: usize = 16;

/// Both answers agree, and so does every byte of the buffer and around it, which held chance bytes before; gives the
/// number of the refusal.
fn agree(draw: &mut Draw, guard: Guard, set: &[u8], room: usize) -> usize {
    let mut found: Vec<u8> = (0..room + 2 * MARGIN).map(|_| draw.byte()).collect();
    let mut want = found.clone();
    let answer = carry::write(guard, set, &mut want[MARGIN..][..room]);
    let written = floe::carry::write(expected::guard(guard), set, &mut found[MARGIN..][..room]);
    assert_eq!(written, expected::written(&answer), "write {guard:?} with {set:02X?} into {room} bytes");
    assert_eq!(found, want, "the buffer after writing {guard:?} with {set:02X?} into {room} bytes");
    written.refused as usize
}

/// AnyHit(1,2).
const SET: &[u8] = &[0, 0, 0, 5, 1, 1, 0, 1, 2];
const TABLE: &[u8] = &[0, 0, 0, 0x0B, 1, 0, 2, 0, 1, 0, 0, 0xFF, 0xFF, 0, 0];

/// "With the set AnyHit(1,2), a guard that was told one miss has" these bytes; and the same guard lost, which counts the
/// miss and doesn't hold it.
#[test]
fn worked() {
    let mut want = vec![0x00, 0x00, 0x00, 0x22, 0x02, 0x00, 0x00, 0x00, 0x05, 0x01, 0x01, 0x00, 0x01, 0x02];
    want.extend([0x01, 0x01, 0x01, 0x01, 0x01, 0x01, 0x01, 0x01, 0x01, 0x01, 0x01, 0x01, 0x01, 0x01, 0x00]);
    want.extend([0x00, 0x00, 0x00, 0x00, 0x00, 0x00, 0x00, 0x01, 0x00]);
    let told = |guard: floe::Guard, outcome| floe::guard::tell(guard, TABLE, outcome).guard;
    let missed = told(floe::guard::start(TABLE).guard, 0);
    let mut record = [7; 38];
    assert_eq!(floe::carry::write(missed, SET, &mut record), floe::Written { refused: 0, at: 0, length: 38 });
    assert_eq!(record[..], want);

    assert_eq!(floe::carry::write(told(missed, 0), SET, &mut record).length, 38);
    (want[36], want[37]) = (2, 1);
    assert_eq!(record[..], want);

    assert_eq!(floe::carry::write(floe::guard::new(), SET, &mut record).length, 38);
    (want[28], want[36], want[37]) = (1, 0, 0);
    assert_eq!(record[..], want);
}

/// Sets of 1 to 8 limits into every room from none to more than enough: 9 with 29 and the bytes of the set.
#[test]
fn every_room() {
    let mut draw = Draw::new(151);
    for count in 1..=8 {
        let limits: Vec<_> = (0..count).map(|_| draw.mild_limit()).collect();
        let set = sets::bytes(&limits);
        for room in 0..=64 {
            let want = if room < 29 + 6 + 3 * count { 9 } else { 0 };
            assert_eq!(agree(&mut draw, FRESH, &set, room), want);
            let guard = draw.guard(6);
            assert_eq!(agree(&mut draw, guard, &set, room), want);
        }
    }
}

#[test]
fn every_limit_alone() {
    let mut draw = Draw::new(152);
    for limit in allowed_limits() {
        let guard = draw.guard(6);
        let want = if limits_nothing(&[limit]) { 21 } else { 0 };
        assert_eq!(agree(&mut draw, guard, &sets::bytes(&[limit]), 38), want);
    }
}

/// Each outcome alone a miss, and alone a hit; each byte of the count alone; states of no table, which the record doesn't
/// hold.
#[test]
fn every_field_of_the_guard() {
    let mut draw = Draw::new(153);
    for lost in [false, true] {
        for hits in [false, true] {
            for place in 0..HELD {
                let mut guard = Guard { lost, outcomes: [hits; HELD], ..FRESH };
                guard.outcomes[place] = !hits;
                assert_eq!(agree(&mut draw, guard, SET, 38), 0);
            }
        }
        let bytes = (0..64).map(|bit| 1 << bit);
        for count in bytes.chain([0x0102_0304_0506_0708, u64::from(u32::MAX), u64::MAX - 1, u64::MAX]) {
            assert_eq!(agree(&mut draw, Guard { lost, count, ..FRESH }, SET, 38), 0);
        }
        for state in [1, 255, 256, 2047, 2048, 32_767, 32_768, 65_535] {
            assert_eq!(agree(&mut draw, Guard { lost, state, ..FRESH }, SET, 38), 0);
        }
    }
}

/// Any guard, any set, any room: 1 to 7 and 21 before 9, and a refusal writes nothing.
#[test]
fn any_guard_any_set_any_room() {
    let mut draw = Draw::new(154);
    let mut seen = [0; 22];
    for _ in 0..cases(100_000) {
        let set = if draw.one_in(3) { sets::bytes(&draw.set()) } else { spoilt_set(&mut draw) };
        let needed = 29 + set.len();
        let room = draw.of(&[0, 4, 29, needed - 1, needed, needed, needed + 1, 100]);
        let guard = draw.guard(6);
        seen[agree(&mut draw, guard, &set, room)] += 1;
    }
    assert!([0, 1, 2, 3, 4, 5, 6, 7, 9, 21].iter().all(|&number| seen[number] > 1000), "{seen:?}");
}
