//! Cases by chance, the same in every run.

use std::env;

use crate::reference::guard::{Guard, HELD};
use crate::reference::limits::{limits_nothing, Limit, LONGEST_WINDOW, OLD_LONGEST_WINDOW};
use crate::reference::{HIT, MISS};

/// Marsaglia's xorshift64, with a multiplication so that the low bits are as good as the high ones.
pub struct Draw(u64);

impl Draw {
    /// Each test has a seed of its own.
    pub fn new(seed: u64) -> Draw {
        Draw(seed.wrapping_mul(0x9E37_79B9_7F4A_7C15) | 1)
    }

    pub fn number(&mut self) -> u64 {
        self.0 ^= self.0 >> 12;
        self.0 ^= self.0 << 25;
        self.0 ^= self.0 >> 27;
        self.0.wrapping_mul(0x2545_F491_4F6C_DD1D) >> 16
    }

    pub fn below(&mut self, bound: usize) -> usize {
        self.number() as usize % bound
    }

    pub fn one_in(&mut self, n: usize) -> bool {
        self.below(n) == 0
    }

    pub fn of<T: Copy>(&mut self, choices: &[T]) -> T {
        choices[self.below(choices.len())]
    }

    pub fn byte(&mut self) -> u8 {
        self.number() as u8
    }

    /// A limit with any allowed numbers, seldom one that limits nothing.
    pub fn limit(&mut self) -> Limit {
        self.limit_within(LONGEST_WINDOW)
    }

    /// One whose window has at most so many jobs.
    fn limit_within(&mut self, longest: usize) -> Limit {
        let kind = self.below(4) as u8;
        if kind == 3 {
            return Limit { kind, x: 1 + self.below(longest) as u8, k: 0 };
        }
        let k = 1 + self.below(longest);
        Limit { kind, x: self.below(k + 1) as u8, k: k as u8 }
    }

    /// A limit that leaves room for misses: eight limits of any numbers mostly keep hits alone.
    pub fn mild_limit(&mut self) -> Limit {
        self.mild_limit_within(LONGEST_WINDOW)
    }

    fn mild_limit_within(&mut self, longest: usize) -> Limit {
        let kind = self.below(4) as u8;
        let some = self.below(4) as u8;
        if kind == 3 {
            return Limit { kind, x: 2 + some, k: 0 };
        }
        let k = (6 + self.below(longest - 5)) as u8;
        Limit { kind, x: if kind == 2 { k - 1 - some } else { 1 + some.min(2) }, k }
    }

    /// A set of 1 to 8 limits that isn't refused, one in two with no window that was too long before.
    pub fn set(&mut self) -> Vec<Limit> {
        let longest = self.of(&[OLD_LONGEST_WINDOW, LONGEST_WINDOW]);
        self.set_within(longest)
    }

    pub fn set_within(&mut self, longest: usize) -> Vec<Limit> {
        let count = 1 + self.below(8);
        let mild = !self.one_in(4);
        let limit = |draw: &mut Draw| if mild { draw.mild_limit_within(longest) } else { draw.limit_within(longest) };
        let set: Vec<Limit> = (0..count).map(|_| limit(self)).collect();
        if limits_nothing(&set) {
            return self.set_within(longest);
        }
        set
    }

    /// A set of 1 to 8 limits that limits nothing.
    pub fn idle_set(&mut self) -> Vec<Limit> {
        let limit = |draw: &mut Draw| {
            let (kind, k) = (draw.below(3) as u8, 1 + draw.below(LONGEST_WINDOW) as u8);
            Limit { kind, x: if kind == 2 { k } else { 0 }, k }
        };
        (0..1 + self.below(8)).map(|_| limit(self)).collect()
    }

    /// A set that differs little from another, so that the first pattern between them is long.
    pub fn neighbour(&mut self, set: &[Limit]) -> Vec<Limit> {
        self.neighbour_within(LONGEST_WINDOW, set)
    }

    pub fn neighbour_within(&mut self, longest: usize, set: &[Limit]) -> Vec<Limit> {
        let mut near = set.to_vec();
        let place = self.below(near.len());
        match self.below(4) {
            0 if near.len() > 1 => drop(near.remove(place)),
            1 if near.len() < 8 => near.insert(place, self.mild_limit_within(longest)),
            2 => near.swap(0, place),
            _ => {
                let limit = &mut near[place];
                let most = if limit.kind == 3 { longest as u8 } else { limit.k };
                limit.x = if limit.x == most { most - 1 } else { limit.x + 1 };
            }
        }
        if limits_nothing(&near) {
            return self.neighbour_within(longest, set);
        }
        near
    }

    /// A guard with any state below `states`, and often a state of no table; any outcomes, and any count.
    pub fn guard(&mut self, states: usize) -> Guard {
        let within = self.below(states) as u16;
        let rarity = self.of(&[1, 2, 5, 100]);
        Guard {
            state: if self.one_in(8) { self.of(&[6, 7, 255, 256, 2047, 32_767, 65_535]) } else { within },
            lost: self.one_in(3),
            outcomes: [(); HELD].map(|()| !self.one_in(rarity)),
            count: self.count(),
        }
    }

    /// A count of outcomes told, often one at the edge of a width.
    pub fn count(&mut self) -> u64 {
        let any = self.number() << 16 | self.number();
        let width = self.of(&[8, 16, 24, 31, 32, 48, 63]);
        let edge = 1 << width;
        self.of(&[0, 1, HELD as u64, any, any, edge - 1, edge, edge + 1, u64::MAX - 1, u64::MAX])
    }

    /// Outcomes of which one in `rarity` is a miss.
    pub fn pattern(&mut self, jobs: usize, rarity: usize) -> Vec<u8> {
        (0..jobs).map(|_| if self.one_in(rarity) { MISS } else { HIT }).collect()
    }
}

/// How many cases to draw: `usual` times the environment variable FLOELINNET_CASES.
pub fn cases(usual: usize) -> usize {
    match env::var("FLOELINNET_CASES") {
        Ok(times) => usual * times.parse::<usize>().expect("FLOELINNET_CASES is a whole number"),
        Err(_) => usual,
    }
}
