//! The reference against itself, said in a second way.

use floelinnet_tests::draw::{cases, Draw};
use floelinnet_tests::pages::{pages, Pages};
use floelinnet_tests::reference::carry::{old_record, read, record, OLD_HELD};
use floelinnet_tests::reference::compare::{between_tables, between_within};
use floelinnet_tests::reference::guard::{ask, tell, Answer, Guard, Story, FRESH, HELD};
use floelinnet_tests::reference::limits::{
    accepted_limits, allowed_limits, holds, limits_nothing, limits_within, set_keeps, width, Limit, LONGEST_WINDOW,
    OLD_LONGEST_WINDOW,
};
use floelinnet_tests::reference::table::{bytes, check, states, State};
use floelinnet_tests::reference::verdict::{lost, Lost};
use floelinnet_tests::reference::{patterns_in_order, refuse, sets, HIT, MISS};

/// The rules with no machine: a state is what is kept after a pattern, as far as windows of `longest` jobs can tell.
fn states_by_continuations(set: &[Limit], longest: usize) -> Vec<State> {
    let continued = |pattern: &[u8], with: &[u8]| set_keeps(set, &[pattern, with].concat());
    let future = |pattern: &[u8]| -> Vec<bool> {
        patterns_in_order(longest).map(|continuation| continued(pattern, &continuation)).collect()
    };
    let mut first: Vec<(Vec<u8>, Vec<bool>)> = Vec::new();
    for pattern in patterns_in_order(longest).filter(|pattern| set_keeps(set, pattern)) {
        let future = future(&pattern);
        if first.iter().all(|(_, known)| *known != future) {
            first.push((pattern, future));
        }
    }
    let number = |pattern: Vec<u8>| first.iter().position(|(_, known)| *known == future(&pattern));
    first
        .iter()
        .map(|(pattern, _)| State {
            miss: number([&pattern[..], &[MISS]].concat()),
            hit: number([&pattern[..], &[HIT]].concat()).expect("a hit is always allowed"),
        })
        .collect()
}

#[test]
fn tables_of_short_windows() {
    for limit in limits_within(5) {
        assert_eq!(states(&[limit]), states_by_continuations(&[limit], 5), "{limit:?}");
    }
    let mut draw = Draw::new(31);
    for _ in 0..cases(80) {
        let count = 1 + draw.below(4);
        let limits: Vec<Limit> = (0..count).map(|_| draw.of(&limits_within(5))).collect();
        assert_eq!(states(&limits), states_by_continuations(&limits, 5), "{limits:?}");
    }
}

fn walks(states: &[State], pattern: &[u8]) -> bool {
    let next = |state: usize, &outcome: &u8| if outcome == HIT { Some(states[state].hit) } else { states[state].miss };
    pattern.iter().try_fold(0, next).is_some()
}

/// The table of any set walks exactly the patterns kept, and passes the check: all short patterns, and longer ones that
/// windows of 16 jobs tell apart.
#[test]
fn tables_walk_what_is_kept() {
    let mut draw = Draw::new(32);
    let mut walked = [0; 2];
    for _ in 0..cases(60) {
        let limits = draw.set();
        let states = states(&limits);
        assert_eq!(check(&bytes(&states)), Ok(states.len()));
        for (pattern, lost) in pages().patterns.iter().zip(pages().verdicts(&limits)) {
            assert_eq!(walks(&states, pattern), lost.is_none(), "{limits:?} on {pattern:?}");
        }
        for _ in 0..200 {
            let (jobs, rarity) = (13 + draw.below(30), draw.of(&[2, 4, 8]));
            let pattern = draw.pattern(jobs, rarity);
            let kept = set_keeps(&limits, &pattern);
            assert_eq!(walks(&states, &pattern), kept, "{limits:?} on {pattern:?}");
            walked[usize::from(kept)] += 1;
        }
    }
    assert!(walked.iter().all(|&times| times > 500), "{walked:?}");
}

/// The first pattern between two sets, by all patterns in order and by both tables.
#[test]
fn between_by_tables() {
    let mut draw = Draw::new(36);
    let mut covers = 0;
    for _ in 0..cases(40) {
        let a = draw.set_within(OLD_LONGEST_WINDOW);
        let b = draw.neighbour_within(OLD_LONGEST_WINDOW, &a);
        let found = between_tables(&states(&a), &states(&b));
        assert_eq!(found, between_within(OLD_LONGEST_WINDOW, &a, &b), "{a:?} with {b:?}");
        covers += usize::from(found.is_none());
    }
    assert!(covers > 5, "{covers}");
    // Long windows, with a pattern of 16 jobs between them and with none.
    let limits: Vec<Limit> =
        [(2, 2, 15), (2, 2, 16), (0, 3, 14), (1, 2, 16), (3, 16, 0)].map(|(kind, x, k)| Limit { kind, x, k }).to_vec();
    let pages = Pages::new(limits.clone(), LONGEST_WINDOW);
    for &a in &limits {
        for &b in &limits {
            let found = between_tables(&states(&[a]), &states(&[b]));
            assert_eq!(found.as_deref(), pages.between(&[a], &[b]), "{a:?} with {b:?}");
        }
    }
    assert_eq!(pages.between(&limits[..1], &limits[1..2]).map(<[u8]>::len), Some(LONGEST_WINDOW));
}

/// The numbers of states that the binomials give: any 8 of 16 jobs, and any 6 of 12.
#[test]
fn states_of_half_the_window() {
    for (x, k, count) in [(8, 16, 12_870), (6, 12, 924)] {
        assert_eq!(states(&[Limit { kind: 0, x, k }]).len(), count);
    }
}

/// Whether a set keeps every pattern, by misses alone and by all patterns of at most 12 jobs, for windows that have room in
/// them.
#[test]
fn sets_that_limit_nothing() {
    let keeps_all = |limits: &[Limit]| pages().verdicts(limits).iter().all(Option::is_none);
    let short = |limits: &[Limit]| limits.iter().all(|&limit| width(limit) <= OLD_LONGEST_WINDOW);
    let mut draw = Draw::new(37);
    let mut idle = 0;
    let by_chance =
        (0..cases(200)).map(|_| if draw.one_in(2) { draw.idle_set() } else { vec![draw.limit(), draw.limit()] });
    let alone = allowed_limits().into_iter().map(|limit| vec![limit]);
    for limits in alone.chain(by_chance.collect::<Vec<_>>()).filter(|limits| short(limits)) {
        assert_eq!(limits_nothing(&limits), keeps_all(&limits), "{limits:?}");
        idle += usize::from(limits_nothing(&limits));
    }
    assert!(idle > 50, "{idle}");
}

/// The pages give back what the literal verdict says.
#[test]
fn pages_are_literal() {
    let mut draw = Draw::new(33);
    for _ in 0..cases(5) {
        let limits = draw.set();
        for (pattern, from_page) in pages().patterns.iter().zip(pages().verdicts(&limits)) {
            assert_eq!(from_page, lost(&limits, pattern), "{limits:?} on {pattern:?}");
        }
    }
}

/// The windows that fail, with the beginning laid between hits: the first of them is the one that is said, and in all of
/// them "job j lies in the window".
#[test]
fn windows_that_fail() {
    const HITS: usize = 20;
    let mut draw = Draw::new(34);
    let mut several = 0;
    for _ in 0..cases(20_000) {
        let limit = draw.limit();
        let jobs = draw.below(30);
        let pattern = draw.pattern(jobs, 3);
        let Some(Lost { job, first, .. }) = lost(&[limit], &pattern) else { continue };
        let around = [&[HIT; HITS], &pattern[..job], &[HIT; HITS]].concat();
        let windows = around.windows(width(limit)).enumerate();
        let fails: Vec<usize> =
            windows.filter(|(_, window)| !holds(limit, window)).map(|(place, _)| place + 1).collect();
        assert_eq!(fails[0] as i64 - HITS as i64, first, "{limit:?} on {pattern:?}");
        let newest = HITS + job;
        assert!(fails.iter().all(|&place| (place..place + width(limit)).contains(&newest)), "{limit:?} on {pattern:?}");
        several += usize::from(fails.len() > 1);
    }
    assert!(several > 1000, "{several}");
}

/// Step by step a guard comes to what its whole story says, and so it does with a change of the battery before each step.
/// A record of version 1 gives that guard with hits in the places of the four oldest outcomes: its state is the same.
#[test]
fn guards_are_their_stories() {
    let mut draw = Draw::new(35);
    let mut heard = [0; 3];
    let mut old_guards = 0;
    for _ in 0..cases(60) {
        let limits = draw.set();
        let (set, states) = (sets::bytes(&limits), states(&limits));
        let table = bytes(&states);
        let (mut guard, mut story) = (FRESH, Story::default());
        for _ in 0..50 {
            let answer = story.answer(&limits);
            assert_eq!(ask(guard, &table), Ok(answer), "{story:?} under {limits:?}");
            heard[answer as usize] += 1;
            let miss = draw.one_in(2) && (answer != Answer::Panic || draw.one_in(30));
            guard = tell(guard, &table, u8::from(!miss)).unwrap();
            story.tell(&limits, u8::from(!miss));
            assert_eq!(guard, story.guard(&states), "{story:?} under {limits:?}");
            assert_eq!(read(&record(guard, &set), &table), Ok(guard), "{story:?} under {limits:?}");
            let old = read(&old_record(guard, &set), &table);
            if limits.iter().any(|&limit| width(limit) > OLD_LONGEST_WINDOW) {
                assert_eq!(old, refuse(20, 0));
            } else {
                old_guards += usize::from(guard.outcomes[..HELD - OLD_HELD].contains(&false));
                let mut outcomes = guard.outcomes;
                outcomes[..HELD - OLD_HELD].fill(true);
                assert_eq!(old, Ok(Guard { outcomes, ..guard }), "{story:?} under {limits:?}");
            }
        }
    }
    assert!(heard.iter().all(|&times| times > 100) && old_guards > 100, "{heard:?}, {old_guards}");
}

/// As many outcomes are held as a window reaches back over: no limit has a longer one, and one has it. So it is with a
/// record of version 1 and the limits that it may be of.
#[test]
fn as_many_held_as_a_window_reaches_back() {
    let longest = |limits: Vec<Limit>| limits.into_iter().map(width).max();
    assert_eq!((longest(accepted_limits()), HELD), (Some(LONGEST_WINDOW), LONGEST_WINDOW - 1));
    let old = limits_within(OLD_LONGEST_WINDOW);
    assert_eq!((longest(old), OLD_HELD), (Some(OLD_LONGEST_WINDOW), OLD_LONGEST_WINDOW - 1));
}
