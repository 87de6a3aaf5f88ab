//! The reference's answer for limits on every pattern of at most so many jobs, worked out once, so that many sets can be
//! tried on all of these patterns.

use std::collections::HashMap;
use std::sync::OnceLock;

use crate::reference::limits::{allowed_limits, keeps, Limit, OLD_LONGEST_WINDOW};
use crate::reference::verdict::{first, Lost};
use crate::reference::{patterns_in_order, HIT};

/// What one limit says.
struct Page {
    /// A bit for each pattern, in the order of patterns.
    kept: Vec<u64>,
    /// Where to look in a pattern that is lost at its last job, by the pattern's place. No set asks for more: of the
    /// pattern at whose last job a set is lost, every shorter beginning is kept by each of its limits.
    first: HashMap<usize, i64>,
}

impl Page {
    fn new(limit: Limit, patterns: &[Vec<u8>]) -> Page {
        let mut page = Page { kept: vec![0; patterns.len().div_ceil(64)], first: HashMap::new() };
        for (place, pattern) in patterns.iter().enumerate() {
            // A hit before or after a pattern is one of the hits without end: the sequence that is looked at is the same.
            let kept = match pattern[..] {
                [HIT, ..] => page.keeps(without_oldest(place, pattern)),
                [.., HIT] => page.keeps(shorter(place)),
                _ => keeps(limit, pattern),
            };
            if kept {
                page.kept[place / 64] |= 1 << (place % 64);
            } else if page.keeps(shorter(place)) {
                page.first.insert(place, first(limit, pattern));
            }
        }
        page
    }

    fn keeps(&self, place: usize) -> bool {
        self.kept[place / 64] >> (place % 64) & 1 == 1
    }
}

/// Where the pattern at this place stands without its newest outcome: at half its place.
fn shorter(place: usize) -> usize {
    (place - 1) / 2
}

/// Where this pattern stands without the hit that it begins with. Patterns of n jobs stand from place 2^n - 1 on, and those
/// that begin with a hit are the second half of them.
fn without_oldest(place: usize, pattern: &[u8]) -> usize {
    place - (1 << pattern.len())
}

pub struct Pages {
    limits: Vec<Limit>,
    pages: Vec<Page>,
    pub patterns: Vec<Vec<u8>>,
}

/// Every limit with allowed numbers on every pattern of at most 12 jobs.
pub fn pages() -> &'static Pages {
    static PAGES: OnceLock<Pages> = OnceLock::new();
    PAGES.get_or_init(|| Pages::new(allowed_limits(), OLD_LONGEST_WINDOW))
}

impl Pages {
    pub fn new(limits: Vec<Limit>, jobs: usize) -> Pages {
        let patterns: Vec<_> = patterns_in_order(jobs).collect();
        let pages = limits.iter().map(|&limit| Page::new(limit, &patterns)).collect();
        Pages { limits, pages, patterns }
    }

    fn page(&self, limit: Limit) -> &Page {
        &self.pages[self.limits.iter().position(|&l| l == limit).expect("the limit has a page")]
    }

    /// "A set keeps the patterns that all of its limits keep, and no others."
    fn kept(&self, set: &[Limit]) -> Vec<u64> {
        let mut kept = vec![!0; self.pages[0].kept.len()];
        for &limit in set {
            kept.iter_mut().zip(&self.page(limit).kept).for_each(|(word, page)| *word &= page);
        }
        kept
    }

    /// For each pattern in order where the set loses it, None where it is kept.
    pub fn verdicts(&self, set: &[Limit]) -> Vec<Option<Lost>> {
        let limits: Vec<&Page> = set.iter().map(|&limit| self.page(limit)).collect();
        let mut verdicts: Vec<Option<Lost>> = Vec::with_capacity(self.patterns.len());
        for (place, pattern) in self.patterns.iter().enumerate() {
            let earlier = if place == 0 { None } else { verdicts[shorter(place)] };
            let now = || {
                let limit = limits.iter().position(|page| !page.keeps(place))?;
                Some(Lost { job: pattern.len(), limit, first: limits[limit].first[&place] })
            };
            verdicts.push(earlier.or_else(now));
        }
        verdicts
    }

    /// The first pattern kept under `a` and not under `b`, of sets whose windows are no longer than the patterns here.
    pub fn between(&self, a: &[Limit], b: &[Limit]) -> Option<&[u8]> {
        let (a, b) = (self.kept(a), self.kept(b));
        let word = (0..a.len()).find(|&word| a[word] & !b[word] != 0)?;
        let place = 64 * word + (a[word] & !b[word]).trailing_zeros() as usize;
        Some(&self.patterns[place])
    }
}
