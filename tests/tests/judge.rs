//! floe_judge against the reference.

use floelinnet_tests::damage::spoilt_set;
use floelinnet_tests::draw::{cases, Draw};
use floelinnet_tests::pages::{pages, Pages};
use floelinnet_tests::reference::limits::{
    accepted_limits, keeps, set_keeps, width, Limit, LONGEST_WINDOW, OLD_LONGEST_WINDOW,
};
use floelinnet_tests::reference::verdict::{first, judge, Lost};
use floelinnet_tests::reference::{sets, table, HIT, MISS};
use floelinnet_tests::{expected, floe};

fn agree(set: &[u8], pattern: &[u8]) -> floe::Verdict {
    let found = floe::verdict::judge(set, pattern);
    assert_eq!(found, expected::verdict(judge(set, pattern)), "judge {set:02X?} on {pattern:?}");
    found
}

/// All patterns of these pages.
fn agree_on_pages(pages: &Pages, limits: &[Limit]) {
    let set = sets::bytes(limits);
    for (pattern, lost) in pages.patterns.iter().zip(pages.verdicts(limits)) {
        let want = expected::verdict(Ok(lost));
        assert_eq!(floe::verdict::judge(&set, pattern), want, "judge {limits:?} on {pattern:?}");
    }
}

#[test]
fn every_limit_alone_on_all_short_patterns() {
    for limit in accepted_limits() {
        agree_on_pages(pages(), &[limit]);
    }
}

/// All 131,071 patterns of at most 16 jobs, under some of the limits with windows of 13 to 16, alone and together.
#[test]
fn long_windows_on_all_patterns() {
    let telling = [(0, 8, 16), (1, 3, 16), (2, 5, 13), (3, 15, 0)];
    let limits = telling.map(|(kind, x, k)| Limit { kind, x, k });
    let pages = Pages::new(limits.to_vec(), LONGEST_WINDOW);
    for limit in limits {
        agree_on_pages(&pages, &[limit]);
    }
    agree_on_pages(&pages, &limits);
}

/// Each limit with a window of 13 to 16, on patterns that may be longer than it.
#[test]
fn every_long_window_on_random_patterns() {
    let mut draw = Draw::new(17);
    let (mut kept, mut lost_late) = (0, 0);
    for limit in accepted_limits().into_iter().filter(|&limit| width(limit) > OLD_LONGEST_WINDOW) {
        let set = sets::bytes(&[limit]);
        for _ in 0..cases(60) {
            let jobs = 1 + draw.below(36);
            let rarity = draw.of(&[1, 2, 3, 8]);
            let verdict = agree(&set, &surviving(&mut draw, &[limit], jobs, rarity));
            kept += verdict.kept;
            lost_late += u64::from(verdict.job > OLD_LONGEST_WINDOW as u64);
        }
    }
    assert!(kept > 1000 && lost_late > 100, "kept {kept}, lost after job 12 {lost_late}");
}

/// RowMiss(x) says that x misses in a row never happen, x from 1 to 16.
#[test]
fn row_misses() {
    for x in 1..=16 {
        let set = sets::bytes(&[Limit { kind: 3, x, k: 0 }]);
        let fewer = vec![MISS; usize::from(x) - 1];
        let kept = [&fewer[..], &[HIT], &fewer].concat();
        assert_eq!(agree(&set, &kept), floe::Verdict { kept: 1, ..Default::default() }, "RowMiss({x})");
        // The window is the second run of misses, after the first and the hit.
        let lost = floe::Verdict { job: 2 * u64::from(x), first: i64::from(x) + 1, ..Default::default() };
        assert_eq!(agree(&set, &[&kept[..], &[MISS]].concat()), lost, "RowMiss({x})");
    }
}

#[test]
fn random_sets_on_all_short_patterns() {
    let mut draw = Draw::new(11);
    for _ in 0..cases(400) {
        agree_on_pages(pages(), &draw.set());
    }
}

/// A pattern that the set mostly keeps: a miss that would lose it is drawn again as a hit, seldom not.
fn surviving(draw: &mut Draw, limits: &[Limit], jobs: usize, rarity: usize) -> Vec<u8> {
    let mut pattern = Vec::new();
    for _ in 0..jobs {
        pattern.push(MISS);
        let miss = draw.one_in(rarity) && (draw.one_in(100) || set_keeps(limits, &pattern));
        *pattern.last_mut().unwrap() = if miss { MISS } else { HIT };
    }
    pattern
}

#[test]
fn random_sets_on_longer_patterns() {
    let mut draw = Draw::new(12);
    let (mut kept, mut lost_late) = (0, 0);
    for _ in 0..cases(3_000) {
        let limits = draw.set();
        let set = sets::bytes(&limits);
        let jobs = 13 + draw.below(48);
        let rarity = draw.of(&[1, 2, 3, 8]);
        let _ = agree(&set, &draw.pattern(jobs, rarity));
        let verdict = agree(&set, &surviving(&mut draw, &limits, jobs, rarity));
        kept += verdict.kept as usize;
        lost_late += usize::from(verdict.job > LONGEST_WINDOW as u64);
    }
    assert!(kept > 100 && lost_late > 100, "kept {kept}, lost after job 16 {lost_late}");
}

/// "Of the windows of that limit that then fail": another limit that doesn't keep the beginning either may have a window
/// that fails earlier, or only later ones.
#[test]
fn the_window_of_the_limit_that_is_said() {
    let mut draw = Draw::new(16);
    let (mut another_earlier, mut another_later, mut before_the_pattern) = (0, 0, 0);
    for _ in 0..cases(10_000) {
        let count = 2 + draw.below(7);
        let limits: Vec<Limit> = (0..count).map(|_| draw.mild_limit()).collect();
        let jobs = 1 + draw.below(40);
        let rarity = draw.of(&[1, 2, 3, 4]);
        let pattern = draw.pattern(jobs, rarity);
        let verdict = agree(&sets::bytes(&limits), &pattern);
        if verdict.kept == 1 {
            continue;
        }
        let beginning = &pattern[..verdict.job as usize];
        let limit = verdict.limit as usize;
        assert_eq!(verdict.first, first(limits[limit], beginning), "judge {limits:?} on {pattern:?}");
        let others = limits.iter().filter(|&&other| !keeps(other, beginning));
        let others: Vec<i64> = others.map(|&other| first(other, beginning)).collect();
        another_earlier += usize::from(others.iter().any(|&other| other < verdict.first));
        another_later += usize::from(others.iter().any(|&other| other > verdict.first));
        before_the_pattern += usize::from(verdict.first < 1);
    }
    let seen = [another_earlier, another_later, before_the_pattern];
    assert!(seen.iter().all(|&cases| cases > 100), "{seen:?}");
}

/// Numbers of jobs that need more than 16 bits, by hand: each pattern is lost by the miss at job 70,005.
#[test]
fn windows_far_into_a_pattern() {
    let rows: [(Limit, &[usize], i64); 6] = [
        (Limit { kind: 0, x: 6, k: 8 }, &[70_000, 70_003, 70_005, 70_006], 69_998),
        // One hit on either side of the misses: 1 000 1.
        (Limit { kind: 1, x: 2, k: 5 }, &[70_003, 70_004, 70_005], 70_002),
        (Limit { kind: 2, x: 2, k: 12 }, &[69_994, 70_004, 70_005], 69_994),
        (Limit { kind: 2, x: 2, k: 16 }, &[69_990, 70_004, 70_005], 69_990),
        (Limit { kind: 3, x: 4, k: 0 }, &[70_002, 70_003, 70_004, 70_005], 70_002),
        (Limit { kind: 3, x: 1, k: 0 }, &[70_005, 70_007], 70_005),
    ];
    for (limit, misses, first) in rows {
        let mut pattern = vec![HIT; 80_000];
        misses.iter().for_each(|&job| pattern[job - 1] = MISS);
        let want = floe::Verdict { job: 70_005, first, ..Default::default() };
        assert_eq!(floe::verdict::judge(&sets::bytes(&[limit]), &pattern), want, "judge {limit:?}");
    }
}

/// Job numbers that need more than 16 bits. Literal windows would take hours here, so the reference's table says
/// which job loses the pattern, and literal windows only which limit and where, on the outcomes just before that job:
/// "job j lies in the window".
#[test]
fn very_long_patterns() {
    let mut draw = Draw::new(13);
    let mut lost = 0;
    for _ in 0..cases(60) {
        let limits = draw.set();
        let states = table::states(&limits);
        let jobs = 65_500 + draw.below(4_000);
        let pattern = kept_then_misses(&mut draw, &states, jobs);
        let job = lost_job(&states, &pattern);
        let earlier = job.saturating_sub(40);
        let before = &pattern[earlier..job];
        let limit = limits.iter().position(|&limit| !keeps(limit, before));
        let lies = |limit: usize| Lost { job, limit, first: earlier as i64 + first(limits[limit], before) };
        let want = expected::verdict(Ok(limit.map(lies)));
        assert_eq!(floe::verdict::judge(&sets::bytes(&limits), &pattern), want, "judge {limits:?}");
        lost += usize::from(job > 65_536);
    }
    assert!(lost > 10, "lost after job 65,536: {lost}");
}

/// A pattern that can be walked, with many misses, and then twenty misses that most sets don't keep.
fn kept_then_misses(draw: &mut Draw, states: &[table::State], jobs: usize) -> Vec<u8> {
    let rarity = draw.of(&[1, 2, 8, 64]);
    let mut state = states[0];
    let mut pattern = Vec::new();
    for _ in 0..jobs {
        let miss = state.miss.filter(|_| draw.one_in(rarity));
        state = states[miss.unwrap_or(state.hit)];
        pattern.push(if miss.is_some() { MISS } else { HIT });
    }
    pattern.extend([MISS; 20]);
    pattern
}

/// The job at which a walk through the table ends, 0 if it doesn't.
fn lost_job(states: &[table::State], pattern: &[u8]) -> usize {
    let mut state = states[0];
    for (place, &outcome) in pattern.iter().enumerate() {
        match (outcome, state.miss) {
            (HIT, _) => state = states[state.hit],
            (_, Some(next)) => state = states[next],
            (_, None) => return place + 1,
        }
    }
    0
}

#[test]
fn outcome_bytes_that_are_no_outcomes() {
    let mut draw = Draw::new(14);
    for _ in 0..cases(200_000) {
        let set = sets::bytes(&draw.set());
        let jobs = 1 + draw.below(20);
        let mut pattern = draw.pattern(jobs, 3);
        for _ in 0..1 + draw.below(3) {
            let place = draw.below(pattern.len());
            pattern[place] = draw.of(&[2, 3, 128, 129, 254, 255]);
        }
        assert_eq!(agree(&set, &pattern).refused, 13);
    }
    for byte in 0..=255 {
        // "those after the job at which it is lost too"
        assert_eq!(agree(&[0, 0, 0, 5, 1, 1, 0, 1, 1], &[0, 0, byte]).refused, if byte > 1 { 13 } else { 0 });
    }
}

#[test]
fn faults_in_the_set_and_in_the_pattern() {
    let mut draw = Draw::new(15);
    let mut seen = [0; 22];
    for _ in 0..cases(300_000) {
        let set = spoilt_set(&mut draw);
        let jobs = draw.below(16);
        let mut pattern = draw.pattern(jobs, 2);
        if !pattern.is_empty() && draw.one_in(2) {
            let place = draw.below(pattern.len());
            pattern[place] = draw.byte();
        }
        seen[agree(&set, &pattern).refused as usize] += 1;
    }
    assert!([1, 2, 3, 4, 5, 6, 7, 13, 21].iter().all(|&number| seen[number] > 100), "{seen:?}");
}
