//! Comparing two sets of eight limits. A comparison takes longest when the answer is yes.

use std::hint::black_box;

use floelinnet_tests::draw::Draw;
use floelinnet_tests::floe;
use floelinnet_tests::reference::limits::{accepted_limits, width, Limit, LONGEST_WINDOW};
use floelinnet_tests::reference::sets::bytes;

use crate::clock::{side_by_side, use_up};
use crate::figures::{words, Figure, Figures, Unit};
use crate::plain;
use crate::search::slowest;

type Pair = (Vec<Limit>, Vec<Limit>);

/// Small changes tried after the sets of equal limits of the longest window.
const CHANGES: usize = 300;

pub fn measure(figures: &mut Figures) {
    for k in [12, LONGEST_WINDOW as u8] {
        figure(figures, "compare", &with_itself(Limit { kind: 1, x: 2, k }));
        figure(figures, "compare", &with_itself(Limit { kind: 0, x: 1, k }));
    }
    let mut draw = Draw::new(81);
    let longest = accepted_limits().into_iter().filter(|&limit| width(limit) == LONGEST_WINDOW);
    let known = longest.map(with_itself);
    let (a, b) = slowest(
        known,
        CHANGES,
        |pair| near(&mut draw, pair),
        |(a, b)| {
            use_up(floe::compare::compare(black_box(&bytes(a)), black_box(&bytes(b))));
        },
    );
    figure(figures, "compare, slowest of a search", &(a, b));
}

fn with_itself(limit: Limit) -> Pair {
    (vec![limit; 8], vec![limit; 8])
}

fn figure(figures: &mut Figures, what: &str, (a, b): &Pair) {
    let input = format!("A: {}; B: {}", words(a), if a == b { "the same".to_owned() } else { words(b) });
    let (a, b) = (bytes(a), bytes(b));
    let found = floe::compare::compare(&a, &b);
    let between = (found.covers == 0).then(|| found.pattern[..found.length as usize].to_vec());
    assert_eq!(plain::compare::compare(&a, &b), Ok(between));
    let times = side_by_side(&mut [&mut || use_up(floe::compare::compare(black_box(&a), black_box(&b))), &mut || {
        use_up(plain::compare::compare(black_box(&a), black_box(&b)))
    }]);
    figures.add(Figure {
        what,
        input: &input,
        buffers: "60 bytes, read just before; none written",
        unit: Unit::Microseconds,
        archive: times[0],
        beside: &format!("all patterns up to {LONGEST_WINDOW} jobs, every window afresh"),
        plain: times[1],
    });
}

fn near(draw: &mut Draw, (a, b): &Pair) -> Pair {
    let mut sets = [a.clone(), b.clone()];
    for _ in 0..1 + draw.below(3) {
        let limit = if draw.one_in(2) { draw.limit() } else { draw.mild_limit() };
        let (set, place) = (draw.below(2), draw.below(8));
        match draw.below(4) {
            0 => sets[set] = vec![limit; 8],
            1 => sets[set][place..].fill(limit),
            _ => sets[set][place] = limit,
        }
    }
    let [a, b] = sets;
    (a, b)
}
