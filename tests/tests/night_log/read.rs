//! floe_log_open and floe_log_next: what is refused, and what is handed out from any place.

use floelinnet_tests::damage::{mend_length, spoilt_log};
use floelinnet_tests::draw::{cases, Draw};
use floelinnet_tests::reference::night_log;
use floelinnet_tests::{expected, floe};

/// Places in a log of `count` outcomes, at its end, past it, and such as a wrong width or sign would confuse.
fn places(count: u64) -> [u64; 12] {
    let last = count.saturating_sub(1);
    [0, 1, count / 2, last, count, count + 1, count + 8, 1 << 31, 1 << 32, (1 << 32) + last, 1 << 63, u64::MAX]
}

/// Opening and calls of the reader from these places agree; gives the number of the refusal.
fn agree(log: &[u8], places: &[u64]) -> usize {
    let held = night_log::outcomes(log);
    let want = expected::log_opened(held.as_ref().map(drop).map_err(|refusal| *refusal));
    assert_eq!(floe::log::open(log), want, "open {log:02X?}");
    for &place in places {
        let want = expected::log_read(night_log::handed_out(place, &held));
        assert_eq!(floe::log::next(place, log), want, "next from place {place} of {log:02X?}");
    }
    want.refused as usize
}

/// Logs worked out by hand, and what they hold or are refused by.
#[test]
fn worked() {
    let rows: [(&[u8], Result<&str, u8>); 18] = [
        (&[0, 0, 0, 5, 1, 0, 0, 0, 0], Ok("")),
        (&[0, 0, 0, 6, 1, 0, 0, 0, 1, 0x00], Ok("0")),
        (&[0, 0, 0, 6, 1, 0, 0, 0, 1, 0x80], Ok("1")),
        (&[0, 0, 0, 6, 1, 0, 0, 0, 3, 0xC0], Ok("110")),
        (&[0, 0, 0, 6, 1, 0, 0, 0, 8, 0xCD], Ok("11001101")),
        (&[0, 0, 0, 7, 1, 0, 0, 0, 9, 0xCD, 0x80], Ok("110011011")),
        // 15: under 9 bytes
        (&[], Err(15)),
        (&[0, 0, 0, 4, 1, 0, 0, 0], Err(15)),
        // the length field isn't the count of bytes after it
        (&[0, 0, 0, 6, 1, 0, 0, 0, 0], Err(15)),
        (&[0, 0, 0, 5, 1, 0, 0, 0, 1, 0x80], Err(15)),
        (&[5, 0, 0, 0, 1, 0, 0, 0, 0], Err(15)),
        // another version
        (&[0, 0, 0, 5, 0, 0, 0, 0, 0], Err(15)),
        (&[0, 0, 0, 6, 2, 0, 0, 0, 3, 0xC0], Err(15)),
        // the length field isn't 5 plus the bytes that the count needs
        (&[0, 0, 0, 6, 1, 0, 0, 0, 0, 0x00], Err(15)),
        (&[0, 0, 0, 6, 1, 0, 0, 0, 9, 0xCD], Err(15)),
        (&[0, 0, 0, 6, 1, 3, 0, 0, 0, 0xC0], Err(15)),
        // 16: unused bits that aren't zero
        (&[0, 0, 0, 6, 1, 0, 0, 0, 3, 0xD0], Err(16)),
        (&[0, 0, 0, 7, 1, 0, 0, 0, 9, 0xCD, 0x81], Err(16)),
    ];
    for (log, want) in rows {
        let held = night_log::outcomes(log);
        let digits = |outcomes: Vec<u8>| outcomes.iter().map(|outcome| outcome.to_string()).collect::<String>();
        assert_eq!(held.map(digits).map_err(|refusal| refusal.number), want.map(String::from), "{log:02X?}");
        assert_eq!(agree(log, &places(9)), want.map_or_else(usize::from, |_| 0), "{log:02X?}");
    }
}

/// Every count of bytes up to 20 with counts of outcomes around each byte that they need, length fields that are true,
/// one off and wrong in one byte, right and wrong versions.
#[test]
fn every_head() {
    let counts = (0..=90).chain([255, 256, 257, 65_536, 1 << 24, 1 << 31, u32::MAX - 7, u32::MAX - 6, u32::MAX]);
    let mut seen = [0; 17];
    for count in counts {
        for length in 0..=20u32 {
            for byte in [0x00, 0x01, 0x80, 0xFF] {
                let mut log = vec![byte; length as usize];
                let head = [0, 0, 0, 0, 1].into_iter().chain(u32::to_be_bytes(count));
                log.iter_mut().zip(head).for_each(|(place, byte)| *place = byte);
                mend_length(&mut log);
                seen[agree(&log, &places(count.into()))] += 1;
                for version in [0, 2, 129, 255].into_iter().take(if length > 4 { 4 } else { 0 }) {
                    log[4] = version;
                    assert_eq!(agree(&log, &[0, 1]), 15);
                    log[4] = 1;
                }
                for change in [1, u32::MAX, 1 << 8, 1 << 16, 1 << 24, 1 << 31].into_iter().filter(|_| length > 4) {
                    log[..4].copy_from_slice(&(length - 4).wrapping_add(change).to_be_bytes());
                    assert_eq!(agree(&log, &[0, 1]), 15);
                }
            }
        }
    }
    // 9 bytes are the log of no outcomes, all four times. Each of the 11 lengths from 10 on is needed by 8 counts: 00 and
    // 80, whose high bit is an outcome's, are taken with all of them, 01 and FF with the one that uses the low bit too.
    assert_eq!(seen[0], 4 + 11 * (8 + 8 + 1 + 1));
    assert_eq!(seen[16], 11 * (7 + 7));
}

/// Each unused bit alone and all of them, and then with each fault of 15 as well: "15, then 16".
#[test]
fn unused_bits() {
    let mut draw = Draw::new(111);
    for jobs in 1..=64 {
        let log = night_log::log(&draw.pattern(jobs, 2));
        let unused = log.len() * 8 - 9 * 8 - jobs;
        let each = (0..unused).map(|bit| 1 << bit).chain([(1u16 << unused) - 1]).filter(|&bits| bits > 0);
        for bits in each {
            let mut log = log.clone();
            *log.last_mut().unwrap() |= bits as u8;
            assert_eq!(agree(&log, &places(jobs as u64)), 16);
            let faults: [fn(&mut Vec<u8>); 5] =
                [|log| log.truncate(8), |log| log[3] += 1, |log| log[4] = 2, |log| log[8] += 8, |log| log[7] = 1];
            for fault in faults {
                let mut log = log.clone();
                fault(&mut log);
                assert_eq!(agree(&log, &places(jobs as u64)), 15);
            }
        }
        // A bit of an outcome isn't unused.
        for place in 0..jobs {
            let mut log = log.clone();
            log[9 + place / 8] ^= 0x80 >> (place % 8);
            assert_eq!(agree(&log, &[place as u64]), 0);
        }
    }
}

/// From the opening on, call by call, and on past the end.
#[test]
fn walks() {
    let mut draw = Draw::new(112);
    for number in 0..cases(400) {
        let most = draw.of(&[20, 300, 4000]);
        let jobs = if number < 30 { number } else { draw.below(most) };
        let pattern = draw.pattern(jobs, 2);
        let log = night_log::log(&pattern);
        let opened = floe::log::open(&log);
        assert_eq!((opened.refused, opened.at, opened.place), (0, 0, 0), "{log:02X?}");
        let mut place = opened.place;
        for job in 0..jobs + 5 {
            let read = floe::log::next(place, &log);
            // 2 is the end
            let want = pattern.get(job).map_or((2, jobs), |&outcome| (u64::from(outcome), job + 1));
            assert_eq!((read.refused, read.at, read.answer), (0, 0, want.0), "call {job} on {log:02X?}");
            assert_eq!(read.place, want.1 as u64, "call {job} on {log:02X?}");
            place = read.place;
        }
    }
}

/// A reader whose log is spoilt between two calls: the place stays, and is good again when the log is.
#[test]
fn refused_calls_keep_the_place() {
    let mut draw = Draw::new(113);
    let mut seen = [0; 17];
    for _ in 0..cases(1_000) {
        let jobs = 1 + draw.below(60);
        let pattern = draw.pattern(jobs, 2);
        let log = night_log::log(&pattern);
        let mut place = 0;
        let mut heard = Vec::new();
        while heard.len() < jobs {
            let mut lent = log.clone();
            if draw.one_in(3) {
                let (byte, bit) = (draw.below(log.len()), draw.below(8));
                lent[byte] ^= 1 << bit;
            }
            let want = night_log::next(place, &lent);
            let read = floe::log::next(place, &lent);
            assert_eq!(read, expected::log_read(want), "place {place} of {lent:02X?}");
            seen[read.refused as usize] += 1;
            match (read.answer, read.refused) {
                (0 | 1, 0) if lent == log => heard.push(read.answer as u8),
                // Another log was read: go back.
                (_, 0) => continue,
                _ => assert_eq!(read.place, place),
            }
            place = read.place;
        }
        assert_eq!(heard, pattern);
    }
    assert!([0, 15, 16].iter().all(|&number| seen[number] > 100), "{seen:?}");
}

#[test]
fn spoilt_logs() {
    let mut draw = Draw::new(114);
    let mut seen = [0; 17];
    for _ in 0..cases(60_000) {
        let log = spoilt_log(&mut draw);
        let count = log.get(8).copied().unwrap_or_default();
        let mut places = places(count.into()).to_vec();
        places.push(draw.number());
        places.push(draw.below(usize::from(count) + 1) as u64);
        seen[agree(&log, &places)] += 1;
    }
    assert!([0, 15, 16].iter().all(|&number| seen[number] > 1000), "{seen:?}");
}
