//! floe_log_judge: "as reading a set; then 15, 16", and else "what the verdict on the outcomes that the log holds is".

use std::fs::{read, read_dir};
use std::path::Path;

use floelinnet_tests::damage::{spoilt_log, spoilt_set};
use floelinnet_tests::draw::{cases, Draw};
use floelinnet_tests::reference::limits::{accepted_limits, Limit};
use floelinnet_tests::reference::{night_log, patterns_in_order, sets};
use floelinnet_tests::{expected, floe};

use crate::shown;

/// Both agree on the log, by the reference's own verdict; gives the number of the refusal.
fn agree(set: &[u8], log: &[u8]) -> usize {
    let want = expected::verdict(night_log::judge(set, log));
    assert_eq!(floe::log::judge(set, log), want, "judge {set:02X?} on {log:02X?}");
    want.refused as usize
}

/// The log of a pattern is judged as the archive judges the pattern.
fn as_its_outcomes(set: &[u8], pattern: &[u8], log: &[u8]) -> floe::Verdict {
    let want = floe::verdict::judge(set, pattern);
    assert_eq!(floe::log::judge(set, log), want, "judge {set:02X?} on the log of {}", shown(pattern));
    want
}

/// Sets by chance on the logs of all 8,191 patterns of at most 12 jobs.
#[test]
fn logs_of_all_short_patterns() {
    let mut draw = Draw::new(131);
    let logs: Vec<_> = patterns_in_order(12).map(|pattern| (night_log::log(&pattern), pattern)).collect();
    let mut kept = 0;
    for _ in 0..cases(100) {
        let set = sets::bytes(&draw.set());
        kept += logs.iter().map(|(log, pattern)| as_its_outcomes(&set, pattern, log).kept).sum::<u64>();
    }
    assert!(kept > 8_000, "{kept}");
}

/// By the reference too.
#[test]
fn longer_logs() {
    let mut draw = Draw::new(132);
    let (mut kept, mut lost_late) = (0, 0);
    for _ in 0..cases(4_000) {
        let set = sets::bytes(&draw.set());
        let jobs = draw.below(60);
        let rarity = draw.of(&[2, 4, 8, 16]);
        let pattern = draw.pattern(jobs, rarity);
        let log = night_log::log(&pattern);
        assert_eq!(agree(&set, &log), 0);
        let verdict = as_its_outcomes(&set, &pattern, &log);
        kept += verdict.kept;
        lost_late += u64::from(verdict.job > 16);
    }
    assert!(kept > 100 && lost_late > 100, "kept {kept}, lost after job 16 {lost_late}");
}

/// A log of a year's nights: kept for long, and lost late if at all.
#[test]
fn very_long_logs() {
    let mut draw = Draw::new(133);
    let (mut kept, mut lost_late) = (0, 0);
    for _ in 0..cases(100) {
        let limit = Limit { kind: 2, x: 2, k: 2 + draw.below(11) as u8 };
        let set = sets::bytes(&[limit, Limit { kind: 3, x: 2, k: 0 }]);
        let jobs = 60_000 + draw.below(12_000);
        let mut pattern = draw.pattern(jobs, usize::MAX);
        for place in (0..jobs).step_by(7 + draw.below(6)) {
            pattern[place] = 0;
        }
        if draw.one_in(2) {
            pattern[jobs - 1 - draw.below(4000)..].iter_mut().take(2).for_each(|outcome| *outcome = 0);
        }
        let verdict = as_its_outcomes(&set, &pattern, &night_log::log(&pattern));
        kept += verdict.kept;
        lost_late += u64::from(verdict.job > 50_000);
    }
    assert!(kept > 10 && lost_late > 10, "kept {kept}, lost late {lost_late}");
}

/// "The empty pattern is kept by every set."
#[test]
fn empty_logs() {
    for limit in accepted_limits() {
        let verdict = floe::log::judge(&sets::bytes(&[limit]), &[0, 0, 0, 5, 1, 0, 0, 0, 0]);
        assert_eq!(verdict, floe::Verdict { kept: 1, ..Default::default() }, "{limit:?}");
    }
}

/// The window of a lost log, by hand: it begins in the log, with job 0, and before that.
#[test]
fn windows() {
    let rows: [(Limit, &[u8], u64, i64); 6] = [
        (Limit { kind: 3, x: 2, k: 0 }, &[0, 0], 2, 1),
        (Limit { kind: 1, x: 2, k: 5 }, &[0, 0, 0], 3, 0),
        (Limit { kind: 2, x: 2, k: 5 }, &[0, 0, 0, 1, 1, 1, 1], 3, -1),
        (Limit { kind: 0, x: 12, k: 12 }, &[0], 1, -10),
        (Limit { kind: 0, x: 16, k: 16 }, &[0], 1, -14),
        // Jobs 7 to 11 lie in two bytes.
        (Limit { kind: 2, x: 1, k: 5 }, &[1, 1, 1, 1, 1, 1, 0, 1, 1, 1, 0, 0], 11, 7),
    ];
    for (limit, pattern, job, first) in rows {
        let verdict = floe::log::judge(&sets::bytes(&[limit]), &night_log::log(pattern));
        assert_eq!(verdict, floe::Verdict { job, first, ..Default::default() }, "{limit:?} on {pattern:?}");
    }
}

/// A set for each of 1 to 7 and 21 and one that is accepted, with a log refused by 15, by 16, by both, and by neither.
#[test]
fn order_of_the_tests() {
    let sets: [(&[u8], usize, u64); 10] = [
        (&[], 1, 0),
        (&[0, 0, 0, 6, 1, 1, 0, 1, 2], 1, 0),
        (&[0, 0, 0, 5, 2, 1, 0, 1, 2], 2, 0),
        (&[0, 0, 0, 5, 1, 9, 0, 1, 2], 3, 0),
        (&[0, 0, 0, 5, 1, 2, 0, 1, 2], 4, 0),
        (&[0, 0, 0, 8, 1, 2, 0, 1, 2, 4, 1, 2], 5, 1),
        (&[0, 0, 0, 8, 1, 2, 0, 1, 2, 1, 1, 17], 6, 1),
        (&[0, 0, 0, 8, 1, 2, 0, 1, 2, 3, 0, 0], 7, 1),
        (&[0, 0, 0, 8, 1, 2, 0, 0, 2, 2, 5, 5], 21, 0),
        (&[0, 0, 0, 5, 1, 1, 0, 1, 1], 0, 0),
    ];
    let logs: [(&[u8], usize); 5] = [
        (&[], 15),
        (&[0, 0, 0, 6, 2, 0, 0, 0, 3, 0x10], 15),
        (&[0, 0, 0, 6, 1, 0, 0, 0, 3, 0x10], 16),
        (&[0, 0, 0, 6, 1, 0, 0, 0, 3, 0x40], 0),
        (&[0, 0, 0, 6, 1, 0, 0, 0, 3, 0xE0], 0),
    ];
    for (set, by_set, at) in sets {
        for (log, by_log) in logs {
            let want = if by_set > 0 { (by_set, at) } else { (by_log, 0) };
            assert_eq!((agree(set, log), floe::log::judge(set, log).at), want, "{set:02X?} {log:02X?}");
        }
    }
    // AnyHit(1,1) loses 010 at its first job, and keeps 111.
    let lost = floe::Verdict { job: 1, first: 1, ..Default::default() };
    assert_eq!(floe::log::judge(sets[9].0, logs[3].0), lost);
    assert_eq!(floe::log::judge(sets[9].0, logs[4].0).kept, 1);
}

#[test]
fn faults_in_the_set_and_in_the_log() {
    let mut draw = Draw::new(134);
    let mut seen = [0; 22];
    for _ in 0..cases(60_000) {
        let set = if draw.one_in(2) { spoilt_set(&mut draw) } else { sets::bytes(&draw.set()) };
        seen[agree(&set, &spoilt_log(&mut draw))] += 1;
    }
    assert!([0, 1, 2, 3, 4, 5, 6, 7, 15, 16, 21].iter().all(|&number| seen[number] > 100), "{seen:?}");
}

/// The stored visits of logs/ under each file of sets/.
#[test]
fn every_file_of_logs() {
    let files = |folder: &str, kind: &str| -> Vec<Vec<u8>> {
        let folder = Path::new(env!("CARGO_MANIFEST_DIR")).join("..").join(folder);
        let paths = read_dir(folder).unwrap().map(|entry| entry.unwrap().path());
        paths
            .filter(|path| path.extension().is_some_and(|found| found == kind))
            .map(|path| read(path).unwrap())
            .collect()
    };
    let mut seen = [0; 22];
    for log in files("logs", "log") {
        assert_eq!(night_log::open(&log), Ok(()), "{log:02X?}");
        for set in files("sets", "limits") {
            seen[agree(&set, &log)] += 1;
        }
    }
    assert!(seen[0] >= 10, "{seen:?}");
}
