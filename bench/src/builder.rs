//! Building the table of a set, from few states to the most that a search finds.

use std::hint::black_box;

use floelinnet_tests::draw::Draw;
use floelinnet_tests::floe;
use floelinnet_tests::reference::limits::Limit;
use floelinnet_tests::reference::sets::bytes;
use floelinnet_tests::reference::table::{LONGEST_TABLE, WORK_ENTRIES};

use crate::clock::{side_by_side, use_up};
use crate::figures::{words, Figure, Figures, Unit};
use crate::plain;

/// Small changes tried in the search for many states.
const CHANGES: usize = 2000;

pub fn measure(figures: &mut Figures) {
    let limit = |kind, x, k| Limit { kind, x, k };
    let mixed = vec![
        limit(0, 3, 12),
        limit(1, 2, 11),
        limit(2, 7, 12),
        limit(3, 6, 0),
        limit(0, 1, 7),
        limit(1, 1, 6),
        limit(2, 5, 9),
        limit(0, 2, 10),
    ];
    let breath = [limit(2, 2, 8), limit(3, 2, 0)];
    clearing(figures, &[limit(0, 1, 1)]);
    clearing(figures, &breath);
    figure(figures, "build", &[limit(0, 2, 4)]);
    figure(figures, "build", &breath);
    for (x, k) in [(6, 12), (8, 16)] {
        figure(figures, "build", &[limit(0, x, k)]);
    }
    for k in [12, 16] {
        figure(figures, "build", &[limit(1, 3, k)]);
    }
    figure(figures, "build", &[limit(0, 8, 16), limit(1, 2, 8)]);
    figure(figures, "build", &mixed);
    figure(figures, "build, most states of a search", &most_states());
}

fn most_states() -> Vec<Limit> {
    let mut draw = Draw::new(91);
    let mut best = vec![Limit { kind: 0, x: 8, k: 16 }];
    let mut most = states(&best);
    for _ in 0..CHANGES {
        let other = if draw.one_in(4) { draw.set() } else { draw.neighbour(&best) };
        let found = states(&other);
        if found > most {
            (best, most) = (other, found);
        }
    }
    best
}

fn states(set: &[Limit]) -> usize {
    (build(&bytes(set), &mut vec![0; WORK_ENTRIES], &mut vec![0; LONGEST_TABLE]) - 7) / 4
}

/// What a build of a small set can't fall below: all entries of the work area are cleared, however few were used.
fn clearing(figures: &mut Figures, set: &[Limit]) {
    let input = format!("{} ({} states)", words(set), states(set));
    let set = bytes(set);
    let (mut work, mut table) = (vec![0; WORK_ENTRIES], vec![0; LONGEST_TABLE]);
    let mut cleared = vec![0_u16; WORK_ENTRIES];
    let times = side_by_side(&mut [&mut || use_up(build(black_box(&set), &mut work, &mut table)), &mut || {
        black_box(&mut cleared).fill(0)
    }]);
    figures.add(Figure {
        what: "build, small",
        input: &input,
        buffers: "work area lent and cleared by the build itself, table written over",
        unit: Unit::Microseconds,
        archive: times[0],
        beside: &format!("clearing {WORK_ENTRIES} entries, nothing else"),
        plain: times[1],
    });
}

fn build(set: &[u8], work: &mut [u16], table: &mut [u8]) -> usize {
    let built = floe::builder::build(set, work, table);
    assert_eq!(built.refused, 0);
    built.length as usize
}

fn figure(figures: &mut Figures, what: &str, set: &[Limit]) {
    let input = format!("{} ({} states)", words(set), states(set));
    let set = bytes(set);
    let (mut work, mut table) = (vec![0; WORK_ENTRIES], vec![0; LONGEST_TABLE]);
    let length = build(&set, &mut work, &mut table);
    assert_eq!(plain::builder::build(&set).as_deref(), Ok(&table[..length]));
    let times = side_by_side(&mut [&mut || use_up(build(black_box(&set), &mut work, &mut table)), &mut || {
        use_up(plain::builder::build(black_box(&set)))
    }]);
    figures.add(Figure {
        what,
        input: &input,
        buffers: "work area lent and cleared by the build itself, table written over; plain: allocated each time",
        unit: Unit::Microseconds,
        archive: times[0],
        beside: "hash map, Moore's rounds, queue",
        plain: times[1],
    });
}
