//! floe_log_write, with all the memory around the buffer looked at afterwards.

use floelinnet_tests::draw::{cases, Draw};
use floelinnet_tests::reference::{night_log, patterns_in_order};
use floelinnet_tests::{expected, floe};

use crate::shown;

/// Bytes on both sides of the lent buffer that the archive must not reach.
const MARGIN: usize = 16;

/// Both answers agree, and so does every byte of the buffer and around it, which held chance bytes before; gives the
/// number of the refusal.
fn agree(draw: &mut Draw, pattern: &[u8], room: usize) -> usize {
    let mut found: Vec<u8> = (0..room + 2 * MARGIN).map(|_| draw.byte()).collect();
    let mut want = found.clone();
    let answer = night_log::write(pattern, &mut want[MARGIN..][..room]);
    let written = floe::log::write(pattern, &mut found[MARGIN..][..room]);
    assert_eq!(written, expected::written(&answer), "write {} into {room} bytes", shown(pattern));
    assert!(found == want, "the buffer after writing {} into {room} bytes", shown(pattern));
    written.refused as usize
}

#[test]
fn every_short_pattern_in_every_room() {
    let mut draw = Draw::new(101);
    let mut seen = [0; 17];
    for pattern in patterns_in_order(10) {
        for room in 0..=13 {
            seen[agree(&mut draw, &pattern, room)] += 1;
        }
    }
    // Rooms from the log's length to 13: 5 for the empty pattern, 4 for 1 to 8 outcomes, 3 for 9 and 10.
    assert_eq!(seen[0], 5 + 510 * 4 + 1536 * 3);
    assert_eq!(seen[0] + seen[9], 2047 * 14);
}

/// One byte short, exact, one byte over and much more; at lengths around each multiple of eight, and longer ones.
#[test]
fn every_length() {
    let mut draw = Draw::new(102);
    for jobs in (0..=300).chain([1000, 2047, 4095, 4096, 4097, 65_535, 65_536, 65_537]) {
        for rarity in [1, 2, 1000] {
            let pattern = draw.pattern(jobs, rarity);
            let needed = night_log::log(&pattern).len();
            for (room, want) in [(needed - 1, 9), (needed, 0), (needed + 1, 0), (2 * needed + 100, 0)] {
                assert_eq!(agree(&mut draw, &pattern, room), want, "{jobs} outcomes into {room} bytes");
            }
        }
    }
}

/// All four bytes of the count differ, and three of the length field.
#[test]
fn millions_of_outcomes() {
    let mut draw = Draw::new(103);
    let pattern = draw.pattern(0x0102_0305, 3);
    let mut log = vec![7; 9 + 0x0020_4061];
    assert_eq!(agree(&mut draw, &pattern, log.len()), 0);
    assert_eq!(floe::log::write(&pattern, &mut log).length, log.len() as u64);
    assert_eq!(log[..9], [0x00, 0x20, 0x40, 0x66, 1, 0x01, 0x02, 0x03, 0x05]);
}

#[test]
fn random_patterns_and_rooms() {
    let mut draw = Draw::new(104);
    let mut seen = [0; 17];
    for _ in 0..cases(30_000) {
        let most = draw.of(&[20, 200, 2000]);
        let jobs = draw.below(most);
        let rarity = draw.of(&[1, 2, 3, 50]);
        let pattern = draw.pattern(jobs, rarity);
        let needed = 9 + jobs.div_ceil(8);
        let room = draw.of(&[0, 8, 9, needed - 1, needed, needed, needed + 1, needed + 300]);
        seen[agree(&mut draw, &pattern, room)] += 1;
    }
    assert!([0, 9].iter().all(|&number| seen[number] > 1000), "{seen:?}");
}

/// "13, then 9": the place of the first byte that is no outcome, whatever the room.
#[test]
fn bytes_that_are_no_outcomes() {
    let mut draw = Draw::new(105);
    for _ in 0..cases(60_000) {
        let most = draw.of(&[1, 20, 300]);
        let jobs = 1 + draw.below(most);
        let mut pattern = draw.pattern(jobs, 3);
        for _ in 0..1 + draw.below(3) {
            let place = draw.below(jobs);
            pattern[place] = draw.of(&[2, 3, 128, 129, 254, 255]);
        }
        let needed = 9 + jobs.div_ceil(8);
        let room = draw.of(&[0, 9, needed - 1, needed, needed + 1]);
        assert_eq!(agree(&mut draw, &pattern, room), 13);
    }
    for byte in 0..=255 {
        for place in 0..20 {
            let mut pattern = [1; 20];
            pattern[place] = byte;
            assert_eq!(agree(&mut draw, &pattern, 12), if byte > 1 { 13 } else { 0 });
            assert_eq!(agree(&mut draw, &pattern, 11), if byte > 1 { 13 } else { 9 });
        }
    }
}
