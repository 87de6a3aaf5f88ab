//! The night log of a million outcomes: judged, written, and read one outcome a call.

use std::hint::black_box;

use floelinnet_tests::draw::Draw;
use floelinnet_tests::floe;
use floelinnet_tests::reference::limits::Limit;
use floelinnet_tests::reference::sets::bytes;

use crate::clock::{side_by_side, use_up};
use crate::figures::{Figure, Figures, Unit};
use crate::plain;
use crate::verdict::{answer, kept, lost, mended, mixed, OUTCOMES};

pub fn measure(figures: &mut Figures) {
    let mixed = mixed();
    judged(figures, "all hits", &mixed, &vec![1; OUTCOMES]);
    judged(figures, "random, few misses: 1 in 20", &mixed, &kept(&mixed, OUTCOMES, 20));
    judged(figures, "random, a miss 1 in 2 times that it may be", &mixed, &kept(&mixed, OUTCOMES, 2));
    lost_beside_kept(figures, &mixed);
    written_and_read(figures);
}

/// All sides give one answer, for which the pattern is gone through to its end.
fn agree(set: &[u8], pattern: &[u8], log: &[u8]) {
    let found = floe::log::judge(set, log);
    assert!(found.kept == 1 || found.job == pattern.len() as u64, "{found:?}");
    assert_eq!(floe::verdict::judge(set, pattern), found);
    assert_eq!(plain::log::judge(set, log), answer(found));
}

fn judged(figures: &mut Figures, input: &str, limits: &[Limit], pattern: &[u8]) {
    let set = bytes(limits);
    let log = log_of(pattern);
    agree(&set, pattern, &log);
    let times = side_by_side(&mut [
        &mut || use_up(floe::log::judge(black_box(&set), black_box(&log))),
        &mut || use_up(floe::verdict::judge(black_box(&set), black_box(pattern))),
        &mut || use_up(plain::log::judge(black_box(&set), black_box(&log))),
    ]);
    let beside = [
        ("floe_judge of the same outcomes as bytes", "125,009 bytes, beside it 1,000,000, read just before"),
        ("unpacked, then each window once, afresh", "125,009 bytes, read just before; beside it one buffer, made anew"),
    ];
    for ((beside, buffers), &time) in beside.into_iter().zip(&times[1..]) {
        figures.add(Figure {
            what: "judge a log, mixed",
            input,
            buffers,
            unit: Unit::NanosecondsPerOutcome(pattern.len()),
            archive: times[0],
            beside,
            plain: time,
        });
    }
}

fn lost_beside_kept(figures: &mut Figures, limits: &[Limit]) {
    let set = bytes(limits);
    let pattern = lost(limits, OUTCOMES, 2);
    let (lost, kept) = (log_of(&pattern), log_of(&mended(&pattern)));
    agree(&set, &pattern, &lost);
    agree(&set, &mended(&pattern), &kept);
    let times = side_by_side(&mut [&mut || use_up(floe::log::judge(black_box(&set), black_box(&lost))), &mut || {
        use_up(floe::log::judge(black_box(&set), black_box(&kept)))
    }]);
    figures.add(Figure {
        what: "judge a log, mixed",
        input: "random, a miss 1 in 2 times that it may be, lost at the last job",
        buffers: "125,009 bytes, read just before; none written",
        unit: Unit::NanosecondsPerOutcome(OUTCOMES),
        archive: times[0],
        beside: "floe_log_judge with a hit at the last job, kept",
        plain: times[1],
    });
}

fn written_and_read(figures: &mut Figures) {
    let mut draw = Draw::new(93);
    let pattern: Vec<u8> = (0..OUTCOMES).map(|_| u8::from(draw.one_in(2))).collect();
    let mut log = log_of(&pattern);
    let mut plain_log = vec![0; log.len()];
    assert_eq!(plain::log::write(&pattern, &mut plain_log), Ok(log.len()));
    assert_eq!(log, plain_log);
    let times =
        side_by_side(&mut [&mut || use_up(floe::log::write(black_box(&pattern), black_box(&mut log))), &mut || {
            use_up(plain::log::write(black_box(&pattern), black_box(&mut plain_log)))
        }]);
    figures.add(Figure {
        what: "write a log",
        input: "a million random outcomes",
        buffers: "1,000,000 bytes read, 125,009 written, both just before",
        unit: Unit::NanosecondsPerOutcome(OUTCOMES),
        archive: times[0],
        beside: "plain packer, eight outcomes at a time",
        plain: times[1],
    });

    let (mut place, mut plain_place) = (0, 0);
    let times = side_by_side(&mut [
        &mut || {
            let read = floe::log::next(black_box(place), black_box(&log));
            place = read.place % (OUTCOMES as u64);
            use_up(read);
        },
        &mut || {
            let read = plain::log::next(black_box(plain_place), black_box(&plain_log)).expect("it is a log");
            plain_place = read.1 % (OUTCOMES as u64);
            use_up(read);
        },
    ]);
    figures.add(Figure {
        what: "a call of the log's reader",
        input: "the same log, place after place",
        buffers: "125,009 bytes, read just before; none written",
        unit: Unit::Nanoseconds,
        archive: times[0],
        beside: "the same tests and a bit",
        plain: times[1],
    });
}

fn log_of(pattern: &[u8]) -> Vec<u8> {
    let mut log = vec![0; 9 + pattern.len().div_ceil(8)];
    assert_eq!(floe::log::write(pattern, &mut log).length, log.len() as u64);
    log
}
