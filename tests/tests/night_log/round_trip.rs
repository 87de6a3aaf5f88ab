//! "Writing and reading give back the same pattern, and each pattern has one log": by the archive alone, which has to
//! agree with itself, and by the reference, which says which bytes are a log.

use floelinnet_tests::draw::{cases, Draw};
use floelinnet_tests::floe;
use floelinnet_tests::reference::{night_log, patterns_in_order};

use crate::shown;

/// What the archive writes of a pattern.
fn written(pattern: &[u8]) -> Vec<u8> {
    let needed = floe::log::write(pattern, &mut []);
    assert_eq!((needed.refused, needed.length), (9, 0), "{}", shown(pattern));
    let mut log = vec![7; needed.at as usize];
    let written = floe::log::write(pattern, &mut log);
    assert_eq!((written.refused, written.length), (0, needed.at), "{}", shown(pattern));
    log
}

/// What the archive's reader hands out, call by call from the opening; None where opening is refused.
fn read(log: &[u8]) -> Option<Vec<u8>> {
    let opened = floe::log::open(log);
    if opened.refused > 0 {
        return None;
    }
    let mut place = opened.place;
    let mut pattern = Vec::new();
    for _ in 0..=8 * log.len() {
        let read = floe::log::next(place, log);
        assert_eq!(read.refused, 0, "an open log is read: {log:02X?}");
        match read.answer {
            2 => return Some(pattern),
            outcome => pattern.push(outcome as u8),
        }
        place = read.place;
    }
    panic!("the reader comes to no end: {log:02X?}");
}

#[test]
fn written_then_read() {
    let mut draw = Draw::new(121);
    let random = (0..cases(2_000)).map(|number| {
        let jobs = if number % 100 == 0 { 3000 + draw.below(3000) } else { draw.below(400) };
        draw.pattern(jobs, 2)
    });
    for pattern in patterns_in_order(10).chain(random) {
        assert_eq!(read(&written(&pattern)).as_ref(), Some(&pattern), "{}", shown(&pattern));
    }
}

/// Whatever bytes are accepted are what the writer writes of the outcomes read from them; gives whether they are.
fn one_log(bytes: &[u8]) -> bool {
    match read(bytes) {
        Some(pattern) => {
            assert_eq!(written(&pattern), bytes, "{}", shown(&pattern));
            true
        }
        None => false,
    }
}

/// All bytes that differ from a log of at most 10 outcomes in one bit, by one byte more, and by one byte less.
#[test]
fn neighbours_of_logs() {
    let mut accepted = 0;
    for pattern in patterns_in_order(10) {
        let log = night_log::log(&pattern);
        let bits = (0..8 * log.len()).map(|bit| {
            let mut near = log.clone();
            near[bit / 8] ^= 1 << (bit % 8);
            near
        });
        let ends = [0x00, 0x01, 0x80, 0xFF].map(|byte| [&log[..], &[byte]].concat());
        let bytes = (0..log.len()).map(|place| [&log[..place], &log[place + 1..]].concat());
        for near in bits.chain(ends).chain(bytes) {
            let is_log = one_log(&near);
            assert_eq!(is_log, night_log::outcomes(&near).is_ok(), "{near:02X?}");
            accepted += usize::from(is_log);
        }
    }
    // For each place of each pattern the other outcome there; and 3,368 times another count whose log needs as many bytes,
    // which is larger, or smaller and the outcomes left out are misses.
    let places: usize = patterns_in_order(10).map(|pattern| pattern.len()).sum();
    assert_eq!(accepted, places + 3_368);
}

/// Of 9, 10 and 11 bytes with a true length field and version 1 as many are accepted as there are patterns that need
/// them, counts up to 24 and all that can follow them tried.
#[test]
fn as_many_logs_as_patterns() {
    for (packed, patterns) in [(0, 1), (1, (1 << 9) - 2), (2, (1 << 17) - (1 << 9))] {
        let mut accepted = 0;
        for count in 0..=24 {
            for contents in 0..1u32 << (8 * packed) {
                let mut bytes = vec![0, 0, 0, 5 + packed, 1, 0, 0, 0, count];
                bytes.extend(&contents.to_be_bytes()[4 - usize::from(packed)..]);
                accepted += u32::from(one_log(&bytes));
            }
        }
        assert_eq!(accepted, patterns, "{packed} bytes of outcomes");
    }
}
