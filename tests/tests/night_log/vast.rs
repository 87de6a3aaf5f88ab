//! Lengths at which a count of 32 bits ends, in memory of which few pages are touched.

use floelinnet_tests::memory::Vast;
use floelinnet_tests::reference::night_log;
use floelinnet_tests::{expected, floe};

const MOST: usize = 4_294_967_295;

/// The bytes that the longest log has.
const LONGEST: usize = 9 + 536_870_912;

const ANY_HIT_1_1: &[u8] = &[0, 0, 0, 5, 1, 1, 0, 1, 1];

/// "The writer tests 15 (over 4,294,967,295 outcomes), 13, then 9."
#[test]
fn more_outcomes_than_a_log_can_count() {
    let mut pattern = Vast::new(MOST + 9);
    pattern[0] = 2;
    for (length, number) in [(MOST, 13), (MOST + 1, 15), (MOST + 9, 15)] {
        for room in [0, 9, 20] {
            let mut log = vec![7; room];
            let answer = night_log::write(&pattern[..length], &mut log.clone());
            let written = floe::log::write(&pattern[..length], &mut log);
            assert_eq!(written, expected::written(&answer), "{length} outcomes into {room} bytes");
            assert_eq!((written.refused, written.at, log), (number, 0, vec![7; room]), "{length} outcomes");
        }
    }
}

/// No outcome of the longest pattern is refused, and the length that its log needs is told.
#[test]
#[ignore = "looks at each of 4,294,967,295 bytes: some seconds, under emulation half a minute"]
fn the_longest_pattern() {
    let pattern = Vast::new(MOST);
    let written = floe::log::write(&pattern, &mut [7; 20]);
    assert_eq!(written, floe::Written { refused: 9, at: LONGEST as u64, length: 0 });
}

/// The log of 4,294,967,295 outcomes, of which the last alone is a hit.
fn longest_log() -> Vast {
    let mut log = Vast::new(LONGEST);
    log[..9].copy_from_slice(&[0x20, 0, 0, 5, 1, 0xFF, 0xFF, 0xFF, 0xFF]);
    log[LONGEST - 1] = 0b10;
    log
}

#[test]
fn the_longest_log() {
    let mut log = longest_log();
    let most = MOST as u64;
    let read = |answer: u64, place: u64| floe::LogRead { refused: 0, at: 0, answer, place };
    assert_eq!(floe::log::open(&log), floe::LogOpened::default());
    for place in [0, 1, 7, 8, most / 2, most - 9, most - 8, most - 2] {
        assert_eq!(floe::log::next(place, &log), read(0, place + 1), "place {place}");
    }
    assert_eq!(floe::log::next(most - 1, &log), read(1, most));
    for place in [most, most + 1, 2 * most, u64::MAX] {
        assert_eq!(floe::log::next(place, &log), read(2, place), "place {place}");
    }
    // Lost at once, so that the other outcomes aren't looked at; judging them all would take minutes.
    let lost = floe::Verdict { job: 1, first: 1, ..Default::default() };
    assert_eq!(floe::log::judge(ANY_HIT_1_1, &log), lost);
    // The lowest bit of the last byte is the one that isn't used.
    log[LONGEST - 1] = 0b11;
    assert_eq!((floe::log::open(&log).refused, floe::log::next(most, &log).refused), (16, 16));
    // One outcome less leaves two bits unused, seven less need a byte less.
    log[LONGEST - 1] = 0b10;
    log[8] = 0xFE;
    assert_eq!((floe::log::open(&log).refused, floe::log::next(most, &log).refused), (16, 16));
    log[8] = 0xF8;
    assert_eq!((floe::log::open(&log).refused, floe::log::next(most, &log).refused), (15, 15));
}

/// Bytes whose length is that of a log of no outcomes, but for 2 to the 32nd.
#[test]
fn lengths_that_no_length_field_holds() {
    let mut log = Vast::new((1 << 32) + 10);
    for (bytes, count) in [(9, 0), (10, 1)] {
        log[..9].copy_from_slice(&[0, 0, 0, bytes - 4, 1, 0, 0, 0, count]);
        let bytes = usize::from(bytes);
        assert_eq!(floe::log::open(&log[..bytes]).refused, 0);
        assert_eq!(floe::log::open(&log[..(1 << 32) + bytes]).refused, 15);
        assert_eq!(floe::log::next(0, &log[..(1 << 32) + bytes]).refused, 15);
        assert_eq!(floe::log::judge(ANY_HIT_1_1, &log[..(1 << 32) + bytes]).refused, 15);
    }
}
