//! Judging a million outcomes under eight limits of window 12. A pattern that is kept, or lost at its last job, is gone
//! through to its end. And judging twelve jobs, where it shows what finding the window of a lost pattern costs.

use std::hint::black_box;

use floelinnet_tests::draw::Draw;
use floelinnet_tests::floe;
use floelinnet_tests::reference::limits::{accepted_limits, width, Limit};
use floelinnet_tests::reference::sets::bytes;
use floelinnet_tests::reference::table::states;

use crate::clock::{side_by_side, use_up};
use crate::figures::{words, Figure, Figures, Unit};
use crate::plain;
use crate::search::slowest;

pub const OUTCOMES: usize = 1_000_000;

/// A set, how rare a miss is among the outcomes where it may be, and some outcomes of that kind.
struct Case {
    limits: Vec<Limit>,
    rarity: usize,
    sample: Vec<u8>,
}

pub fn measure(figures: &mut Figures) {
    let mixed = mixed();
    figures.note(format!("mixed: {}", words(&mixed)));
    figure(figures, "verdict, mixed", "all hits", &mixed, &vec![1; OUTCOMES]);
    figure(figures, "verdict, mixed", "random, few misses: 1 in 20", &mixed, &kept(&mixed, OUTCOMES, 20));
    figure(figures, "verdict, mixed", "random, a miss 1 in 2 times that it may be", &mixed, &kept(&mixed, OUTCOMES, 2));
    lost_beside_kept(figures, &mixed);
    for limits in eights() {
        let input = format!("{}, a miss wherever it may be", words(&limits));
        figure(figures, "verdict", &input, &limits, &kept(&limits, OUTCOMES, 1));
    }
    let Case { limits, rarity, .. } = slowest_case();
    figures.note(format!("slowest of a search for the verdict: {}", words(&limits)));
    let input = match rarity {
        1 => "a miss wherever it may be".to_owned(),
        _ => format!("random, a miss 1 in {rarity} times that it may be"),
    };
    figure(figures, "verdict, slowest of a search", &input, &limits, &kept(&limits, OUTCOMES, rarity));
    twelve_jobs(figures, Limit { kind: 0, x: 6, k: 12 }, "010101010100");
    twelve_jobs(figures, Limit { kind: 1, x: 6, k: 12 }, "111111111100");
}

/// Eight limits of all kinds, of window 12.
pub fn mixed() -> Vec<Limit> {
    [(0, 3, 12), (1, 2, 12), (2, 8, 12), (3, 12, 0)].map(|(kind, x, k)| Limit { kind, x, k }).repeat(2)
}

/// Eight limits that are slow to look at: hits counted, runs of one hit, runs of two.
fn eights() -> [Vec<Limit>; 3] {
    let [any_hit, row_of_1, row_of_2, row_miss] =
        [(0, 1, 12), (1, 1, 12), (1, 2, 12), (3, 12, 0)].map(|(kind, x, k)| Limit { kind, x, k });
    [vec![any_hit; 8], [vec![row_miss; 2], vec![row_of_1; 6]].concat(), vec![row_of_2; 8]]
}

/// Each outcome is by chance one in `rarity` a miss, unless the set then wouldn't keep the pattern.
pub fn kept(limits: &[Limit], outcomes: usize, rarity: usize) -> Vec<u8> {
    let states = states(limits);
    let mut draw = Draw::new(91);
    let mut state = states[0];
    let outcome = |_| {
        let miss = state.miss.filter(|_| draw.one_in(rarity));
        state = states[miss.unwrap_or(state.hit)];
        u8::from(miss.is_none())
    };
    (0..outcomes).map(outcome).collect()
}

/// The same, but that the last outcome, a miss, loses it: after eleven hits, which leave nothing of what was before, come
/// as many misses as lose a pattern by themselves.
pub fn lost(limits: &[Limit], outcomes: usize, rarity: usize) -> Vec<u8> {
    let misses = floe::verdict::judge(&bytes(limits), &[0; 12]).job as usize;
    [kept(limits, outcomes - 11 - misses, rarity), vec![1; 11], vec![0; misses]].concat()
}

/// With a hit as its last outcome.
pub fn mended(lost: &[u8]) -> Vec<u8> {
    [&lost[..lost.len() - 1], &[1]].concat()
}

/// The archive's answer in the form of the plain programs.
pub fn answer(found: floe::Verdict) -> Result<plain::verdict::Lost, plain::sets::Refusal> {
    match found {
        floe::Verdict { refused: 1.., at, .. } => Err((found.refused as u8, at as usize)),
        floe::Verdict { kept: 1, .. } => Ok(None),
        floe::Verdict { job, limit, first, .. } => Ok(Some((job as usize, limit as usize, first))),
    }
}

/// Both plain programs answer as the archive does, which goes through the pattern to its end.
fn agree(set: &[u8], pattern: &[u8]) {
    let found = floe::verdict::judge(set, pattern);
    assert!(found.kept == 1 || found.job == pattern.len() as u64, "{found:?}");
    assert_eq!(plain::verdict::each_window_once(set, pattern), answer(found));
    assert_eq!(plain::verdict::windows_over_each_job(set, pattern), answer(found));
}

fn figure(figures: &mut Figures, what: &str, input: &str, limits: &[Limit], pattern: &[u8]) {
    let set = bytes(limits);
    agree(&set, pattern);
    let times = side_by_side(&mut [
        &mut || use_up(floe::verdict::judge(black_box(&set), black_box(pattern))),
        &mut || use_up(plain::verdict::each_window_once(black_box(&set), black_box(pattern))),
        &mut || use_up(plain::verdict::windows_over_each_job(black_box(&set), black_box(pattern))),
    ]);
    let beside = ["each window once, afresh", "after each job all windows over it, afresh"];
    for (beside, &plain) in beside.into_iter().zip(&times[1..]) {
        figures.add(Figure {
            what,
            input,
            buffers: "1,000,000 bytes, read just before; none written",
            unit: Unit::NanosecondsPerOutcome(pattern.len()),
            archive: times[0],
            beside,
            plain,
        });
    }
}

/// A million outcomes of which the last one, a miss, loses the pattern, and the same with a hit there, which keeps it.
fn lost_beside_kept(figures: &mut Figures, limits: &[Limit]) {
    let set = bytes(limits);
    let lost = lost(limits, OUTCOMES, 2);
    let kept = mended(&lost);
    agree(&set, &lost);
    agree(&set, &kept);
    let times =
        side_by_side(&mut [&mut || use_up(floe::verdict::judge(black_box(&set), black_box(&lost))), &mut || {
            use_up(floe::verdict::judge(black_box(&set), black_box(&kept)))
        }]);
    figures.add(Figure {
        what: "verdict, mixed",
        input: "random, a miss 1 in 2 times that it may be, lost at the last job",
        buffers: "1,000,000 bytes, read just before; none written",
        unit: Unit::NanosecondsPerOutcome(OUTCOMES),
        archive: times[0],
        beside: "floe_judge with a hit at the last job, kept",
        plain: times[1],
    });
}

/// Twelve jobs of which the last one, a miss, loses the pattern, and the same with a hit there, which keeps it.
fn twelve_jobs(figures: &mut Figures, limit: Limit, digits: &str) {
    let set = bytes(&[limit]);
    let lost: Vec<u8> = digits.bytes().map(|digit| digit - b'0').collect();
    let kept = mended(&lost);
    agree(&set, &lost);
    agree(&set, &kept);
    assert_eq!([&lost, &kept].map(|pattern| floe::verdict::judge(&set, pattern).kept), [0, 1]);
    let times = side_by_side(&mut [
        &mut || use_up(floe::verdict::judge(black_box(&set), black_box(&lost))),
        &mut || use_up(floe::verdict::judge(black_box(&set), black_box(&kept))),
        &mut || use_up(plain::verdict::each_window_once(black_box(&set), black_box(&lost))),
        &mut || use_up(plain::verdict::windows_over_each_job(black_box(&set), black_box(&lost))),
    ]);
    let beside = [
        "floe_judge with a hit at the last job, kept",
        "each window once, then job by job, afresh",
        "after each job all windows over it, afresh",
    ];
    for (beside, &time) in beside.into_iter().zip(&times[1..]) {
        figures.add(Figure {
            what: "verdict, lost at the last job",
            input: &format!("{} on {digits}", words(&[limit])),
            buffers: "12 bytes, read just before; none written",
            unit: Unit::Nanoseconds,
            archive: times[0],
            beside,
            plain: time,
        });
    }
}

/// Of eight equal limits of window 12 with different shares of misses, and then of small changes.
fn slowest_case() -> Case {
    let width_12: Vec<Limit> = accepted_limits().into_iter().filter(|&limit| width(limit) == 12).collect();
    let case = |limits: Vec<Limit>, rarity| Case { sample: kept(&limits, OUTCOMES / 50, rarity), limits, rarity };
    let equal = width_12.iter().flat_map(|&limit| (1..=3).map(move |rarity| case(vec![limit; 8], rarity)));
    let mut draw = Draw::new(92);
    let change = |slowest: &Case| {
        let mut limits = slowest.limits.clone();
        limits[draw.below(8)] = draw.of(&width_12);
        case(limits, 1 + draw.below(3))
    };
    slowest(equal, 200, change, |Case { limits, sample, .. }| {
        use_up(floe::verdict::judge(black_box(&bytes(limits)), black_box(sample)));
    })
}
