//! floe_compare against the reference.

use std::collections::HashMap;

use floelinnet_tests::damage::spoilt_set;
use floelinnet_tests::draw::{cases, Draw};
use floelinnet_tests::pages::pages;
use floelinnet_tests::reference::compare::{between_tables, between_within, read_both, Between};
use floelinnet_tests::reference::limits::{
    accepted_limits, limits_nothing, limits_within, width, Limit, LONGEST_WINDOW, OLD_LONGEST_WINDOW,
};
use floelinnet_tests::reference::sets;
use floelinnet_tests::reference::table::{states, State};
use floelinnet_tests::{expected, floe};

/// Both answers agree; gives the length of the pattern between the sets.
fn agree(a: &[Limit], b: &[Limit], between: Between) -> usize {
    let want = expected::comparison(Ok(between));
    assert_eq!(floe::compare::compare(&sets::bytes(a), &sets::bytes(b)), want, "compare {a:?} with {b:?}");
    want.length as usize
}

fn agree_by_pages(a: &[Limit], b: &[Limit]) -> usize {
    agree(a, b, pages().between(a, b).map(<[u8]>::to_vec))
}

/// By the tables: "B keeps every pattern that A keeps", those of more than 16 jobs too.
fn agree_by_tables(a: &[Limit], b: &[Limit]) -> usize {
    agree(a, b, between_tables(&states(a), &states(b)))
}

/// All with windows of at most 12 jobs.
#[test]
fn every_limit_with_every_limit() {
    let limits = limits_within(OLD_LONGEST_WINDOW);
    for &a in &limits {
        for &b in &limits {
            agree_by_pages(&[a], &[b]);
        }
    }
}

/// Each limit with a longer window with some that are near, both ways, and with some others.
#[test]
fn every_longer_limit_with_some() {
    let mut draw = Draw::new(25);
    let limits = accepted_limits();
    let tables: HashMap<Limit, Vec<State>> = limits.iter().map(|&limit| (limit, states(&[limit]))).collect();
    let mut lengths = [0; LONGEST_WINDOW + 1];
    for &a in limits.iter().filter(|&&limit| width(limit) > OLD_LONGEST_WINDOW) {
        let same_window: Vec<Limit> = limits.iter().copied().filter(|&b| width(b).abs_diff(width(a)) < 2).collect();
        for _ in 0..3 {
            let (near, other) = (draw.of(&same_window), draw.of(&limits));
            for (a, b) in [(a, near), (near, a), (a, other)] {
                lengths[agree(&[a], &[b], between_tables(&tables[&a], &tables[&b]))] += 1;
            }
        }
    }
    assert!(lengths[1..].iter().filter(|&&times| times > 0).count() > 8, "lengths of patterns between: {lengths:?}");
}

/// A set, and one that is drawn afresh, differs little or is a part of it.
fn pair(draw: &mut Draw, longest: usize) -> (Vec<Limit>, Vec<Limit>) {
    let a = draw.set_within(longest);
    let b = match draw.below(4) {
        0 => draw.set_within(longest),
        1 => a[..1 + draw.below(a.len())].to_vec(),
        _ => draw.neighbour_within(longest, &a),
    };
    // Of a set that isn't refused a part may be.
    if limits_nothing(&b) {
        return pair(draw, longest);
    }
    if draw.one_in(2) {
        (a, b)
    } else {
        (b, a)
    }
}

#[test]
fn random_pairs() {
    let mut draw = Draw::new(21);
    let mut lengths = [0; OLD_LONGEST_WINDOW + 1];
    for _ in 0..cases(20_000) {
        let (a, b) = pair(&mut draw, OLD_LONGEST_WINDOW);
        lengths[agree_by_pages(&a, &b)] += 1;
    }
    assert!(lengths.iter().all(|&times| times > 3), "lengths of patterns between: {lengths:?}");
}

#[test]
fn random_pairs_with_long_windows() {
    let mut draw = Draw::new(23);
    let mut lengths = [0; LONGEST_WINDOW + 1];
    for _ in 0..cases(250) {
        let (a, b) = pair(&mut draw, LONGEST_WINDOW);
        lengths[agree_by_tables(&a, &b)] += 1;
    }
    assert!(lengths[0] > 50 && lengths[8..].iter().sum::<usize>() > 3, "lengths of patterns between: {lengths:?}");
}

/// The reference's own search, pattern by pattern, without the pages.
#[test]
fn random_pairs_literally() {
    let mut draw = Draw::new(22);
    for _ in 0..cases(300) {
        let (a, b) = pair(&mut draw, OLD_LONGEST_WINDOW);
        agree(&a, &b, between_within(OLD_LONGEST_WINDOW, &a, &b));
    }
}

/// "for the first set and then for the second; a refusal says which of them, 1 or 2"
#[test]
fn refused_comparisons() {
    let mut draw = Draw::new(24);
    let mut seen = [[0; 22]; 3];
    for _ in 0..cases(200_000) {
        let allowed = sets::bytes(&draw.set());
        let (a, b) = (spoilt_set(&mut draw), spoilt_set(&mut draw));
        for (a, b) in [(&a, &b), (&a, &allowed), (&allowed, &b)] {
            let Err(refused) = read_both(a, b) else { continue };
            let want = expected::comparison(Err(refused));
            assert_eq!(floe::compare::compare(a, b), want, "compare {a:02X?} with {b:02X?}");
            seen[want.which as usize][want.refused as usize] += 1;
        }
    }
    let numbers = [1, 2, 3, 4, 5, 6, 7, 21];
    assert!(seen[1..].iter().all(|which| numbers.iter().all(|&number| which[number] > 100)), "{seen:?}");
}
