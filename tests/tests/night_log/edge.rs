//! What is lent ends where memory ends: a read or a write past it would end the test.

use floelinnet_tests::damage::spoilt_log;
use floelinnet_tests::draw::{cases, Draw};
use floelinnet_tests::memory::Edge;
use floelinnet_tests::reference::{night_log, sets};
use floelinnet_tests::{expected, floe};

/// A log that is accepted or spoilt, or any beginning of one.
fn drawn_log(draw: &mut Draw) -> Vec<u8> {
    if draw.one_in(3) {
        return spoilt_log(draw);
    }
    let most = draw.of(&[1, 20, 2000]);
    let jobs = draw.below(most);
    let mut log = night_log::log(&draw.pattern(jobs, 2));
    if draw.one_in(4) {
        log.truncate(draw.below(log.len() + 1));
    }
    log
}

#[test]
fn reading_and_judging() {
    let mut draw = Draw::new(141);
    let (mut set_edge, mut log_edge) = (Edge::new(30), Edge::new(4096));
    let mut seen = [0; 17];
    for _ in 0..cases(10_000) {
        let log = drawn_log(&mut draw);
        let held = night_log::outcomes(&log);
        let lent = log_edge.lend(&log);
        assert_eq!(floe::log::open(lent), expected::log_opened(night_log::open(&log)), "{log:02X?}");
        let count = held.as_ref().map_or(3, Vec::len) as u64;
        for place in [0, count.saturating_sub(1), count, count + 1, u64::MAX] {
            let want = expected::log_read(night_log::handed_out(place, &held));
            assert_eq!(floe::log::next(place, lent), want, "place {place} of {log:02X?}");
        }
        let set = set_edge.lend(&sets::bytes(&draw.set()));
        let found = floe::log::judge(set, lent);
        match held {
            Ok(outcomes) => assert_eq!(found, floe::verdict::judge(set, &outcomes), "{set:02X?} {log:02X?}"),
            Err(refusal) => assert_eq!(found, expected::verdict(Err(refusal)), "{set:02X?} {log:02X?}"),
        }
        seen[found.refused as usize] += 1;
    }
    assert!([0, 15, 16].iter().all(|&number| seen[number] > 100), "{seen:?}");
}

#[test]
fn writing() {
    let mut draw = Draw::new(142);
    let (mut pattern_edge, mut log_edge) = (Edge::new(4096), Edge::new(4096));
    let mut seen = [0; 17];
    for _ in 0..cases(10_000) {
        let most = draw.of(&[1, 20, 2000]);
        let jobs = draw.below(most);
        let mut pattern = draw.pattern(jobs, 2);
        if draw.one_in(4) {
            pattern.push(2);
        }
        let needed = 9 + pattern.len().div_ceil(8);
        let room = draw.of(&[0, 9, needed - 1, needed, needed, needed + 1]);
        let mut want: Vec<u8> = (0..room).map(|_| draw.byte()).collect();
        let lent = log_edge.lend(&want);
        let answer = night_log::write(&pattern, &mut want);
        let written = floe::log::write(pattern_edge.lend(&pattern), lent);
        assert_eq!(written, expected::written(&answer), "{pattern:?} into {room} bytes");
        assert_eq!(lent, want, "{pattern:?} into {room} bytes");
        seen[written.refused as usize] += 1;
    }
    assert!([0, 9, 13].iter().all(|&number| seen[number] > 100), "{seen:?}");
}
