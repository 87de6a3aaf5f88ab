//! The two calls on a carry-over record against the reference.

mod edge;
mod old;
mod operations;
mod read;
mod round_trip;
mod vast;
mod write;

use floelinnet_tests::draw::Draw;
use floelinnet_tests::reference::limits::{Limit, LONGEST_WINDOW};
use floelinnet_tests::reference::sets;
use floelinnet_tests::reference::table::{bytes, states, State};

/// A set with its bytes and its table.
struct Walked {
    limits: Vec<Limit>,
    set: Vec<u8>,
    states: Vec<State>,
    table: Vec<u8>,
}

impl Walked {
    fn new(limits: Vec<Limit>) -> Walked {
        let states = states(&limits);
        Walked { set: sets::bytes(&limits), table: bytes(&states), limits, states }
    }

    /// The same set with the table of a partner: it walks the same patterns, with two or three states for each one of the
    /// smallest machine, numbered by chance. State 0 is still the start.
    fn partners(&self, draw: &mut Draw) -> Walked {
        let copies = 2 + draw.below(2);
        let mut numbers: Vec<usize> = (0..copies * self.states.len()).collect();
        for place in (2..numbers.len()).rev() {
            numbers.swap(place, 1 + draw.below(place));
        }
        // Copy c of a state has the number at the place that it has, and a move leads to any copy.
        let number = |state: usize, copy: usize| numbers[copies * state + copy];
        let mut states = vec![State { miss: None, hit: 0 }; numbers.len()];
        for (place, state) in self.states.iter().enumerate() {
            for copy in 0..copies {
                states[number(place, copy)] = State {
                    miss: state.miss.map(|miss| number(miss, draw.below(copies))),
                    hit: number(state.hit, draw.below(copies)),
                };
            }
        }
        Walked { limits: self.limits.clone(), set: self.set.clone(), table: bytes(&states), states }
    }
}

/// So many sets by chance, each with 2 to 600 states: a record is read with the whole table, again and again.
fn walked(draw: &mut Draw, sets: usize) -> Vec<Walked> {
    walked_within(draw, LONGEST_WINDOW, sets)
}

/// Those whose windows have at most so many jobs.
fn walked_within(draw: &mut Draw, longest: usize, sets: usize) -> Vec<Walked> {
    let drawn = std::iter::repeat_with(|| Walked::new(draw.set_within(longest)));
    drawn.filter(|walked| (2..=600).contains(&walked.states.len())).take(sets).collect()
}
