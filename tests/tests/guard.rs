//! floe_guard_new, floe_guard_start, floe_guard_ask and floe_guard_tell against the reference.

use floelinnet_tests::damage::{damage, drawn_table};
use floelinnet_tests::draw::{cases, Draw};
use floelinnet_tests::pages::pages;
use floelinnet_tests::reference::guard::{ask, start, tell, Answer, Guard, Story, FRESH, HELD};
use floelinnet_tests::reference::limits::{accepted_limits, Limit};
use floelinnet_tests::reference::table::{self, LONGEST_TABLE, MOST_STATES, WORK_ENTRIES};
use floelinnet_tests::{expected, floe};

fn agree_on_start(table: &[u8]) -> usize {
    let want = expected::started(start(table));
    assert_eq!(floe::guard::start(table), want, "start on {table:02X?}");
    want.refused as usize
}

/// Asks and tells, and goes on with the guard told.
fn agree_on_guard(guard: Guard, table: &[u8], outcome: u8) -> (Guard, usize) {
    let lent = expected::guard(guard);
    let want = expected::asked(guard, ask(guard, table));
    assert_eq!(floe::guard::ask(lent, table), want, "ask {guard:?} on {table:02X?}");
    let answer = tell(guard, table, outcome);
    let want = expected::told(guard, answer);
    assert_eq!(floe::guard::tell(lent, table, outcome), want, "tell {guard:?} {outcome} on {table:02X?}");
    (answer.unwrap_or(guard), want.refused as usize)
}

#[test]
fn any_table_any_guard_any_outcome() {
    let mut draw = Draw::new(61);
    let mut seen = [0; 18];
    for _ in 0..cases(200_000) {
        let mut table = drawn_table(&mut draw, 6);
        if draw.one_in(2) {
            damage(&mut draw, &mut table);
        }
        agree_on_start(&table);
        let mut guard = draw.guard(6);
        for _ in 0..4 {
            let outcome = draw.of(&[0, 0, 0, 1, 1, 1, 2, 255]);
            let refused;
            (guard, refused) = agree_on_guard(guard, &table, outcome);
            seen[refused] += 1;
        }
    }
    assert!([0, 10, 11, 12, 13, 17].iter().all(|&number| seen[number] > 100), "{seen:?}");
}

/// "A guard with nothing told isn't lost, is in state 0, holds 15 hits and has the count 0. The library makes one; a guard
/// of zero bytes is another, for it holds misses."
#[test]
fn nothing_told() {
    let nothing = floe::Guard { state: 0, lost: false, outcomes: [true; 15], count: 0 };
    assert_eq!(floe::guard::new(), nothing);
    assert_eq!(floe::guard::start(TABLE).guard, nothing);
    assert_eq!(floe::guard::start(&TABLE[1..]).guard, nothing);
    assert_eq!(expected::guard(FRESH), nothing);
}

/// AnyHit(1,2): after a miss a hit.
const TABLE: &[u8] = &[0, 0, 0, 0x0B, 1, 0, 2, 0, 1, 0, 0, 0xFF, 0xFF, 0, 0];

/// The largest count, and those around it: "as ask; then 13 with 0; then 17", every choice of faults, of a lost guard too.
/// A refused tell gives back the guard that came.
#[test]
fn every_choice_of_faults_at_the_largest_count() {
    let tables = [
        (TABLE, 0),
        (&TABLE[..14], 10),
        (&[0, 0, 0, 0x0B, 2, 0, 2, 0, 1, 0, 0, 0xFF, 0xFF, 0, 0], 11),
        (&[0, 0, 0, 0x0B, 1, 0, 2, 0, 2, 0, 0, 0xFF, 0xFF, 0, 2], 12),
    ];
    let mut outcomes = [true; HELD];
    outcomes[3] = false;
    for count in [0, 1, u64::from(u32::MAX), 1 << 63, u64::MAX - 2, u64::MAX - 1, u64::MAX] {
        for (table, fault) in tables {
            for outcome in [0, 1, 2, 255] {
                for (state, lost) in [(0, false), (1, false), (0, true), (1, true)] {
                    let guard = Guard { state, lost, outcomes, count };
                    let faults = [(fault > 0, fault), (outcome > 1, 13), (count == u64::MAX, 17)];
                    let want = faults.iter().find(|(present, _)| *present).map_or(0, |&(_, number)| number);
                    let (told, refused) = agree_on_guard(guard, table, outcome);
                    assert_eq!(refused, want, "{guard:?} told {outcome}");
                    assert_eq!(told.count, if want == 0 { count + 1 } else { count });
                }
            }
        }
    }
}

/// What is held after each tell: the outcome as the newest, without the oldest; from the miss in panic on, what was held
/// before it.
#[test]
fn outcomes_held() {
    let mut guard = floe::guard::start(TABLE).guard;
    let rows = [
        (0, "111111111111110", false),
        (1, "111111111111101", false),
        (1, "111111111111011", false),
        (0, "111111111110110", false),
        (1, "111111111101101", false),
        (0, "111111111011010", false),
        (1, "111111110110101", false),
        (1, "111111101101011", false),
        (1, "111111011010111", false),
        (1, "111110110101111", false),
        (1, "111101101011111", false),
        (1, "111011010111111", false),
        (1, "110110101111111", false),
        (1, "101101011111111", false),
        (1, "011010111111111", false),
        (0, "110101111111110", false),
        (0, "110101111111110", true),
        (1, "110101111111110", true),
        (0, "110101111111110", true),
    ];
    for (count, (outcome, held, lost)) in (1..).zip(rows) {
        guard = floe::guard::tell(guard, TABLE, outcome).guard;
        let outcomes = guard.outcomes.map(|hit| if hit { '1' } else { '0' });
        assert_eq!(String::from_iter(outcomes), held, "after {count} outcomes");
        assert_eq!((guard.lost, guard.count), (lost, count));
    }
}

/// On the table of a set a guard that was told a pattern says what the meaning of kept says of it: every limit alone,
/// then sets by chance.
#[test]
fn all_short_patterns_on_tables_of_sets() {
    let mut draw = Draw::new(62);
    let alone = accepted_limits().into_iter().map(|limit| vec![limit]);
    for limits in alone.chain((0..cases(40)).map(|_| draw.set())) {
        let table = table::bytes(&table::states(&limits));
        agree_on_start(&table);
        let verdicts = pages().verdicts(&limits);
        let mut guards = vec![expected::guard(FRESH)];
        for place in 0..verdicts.len() / 2 {
            let with_miss = 2 * place + 1;
            let want = match (verdicts[place], verdicts[with_miss]) {
                (Some(_), _) => Answer::Lost,
                (None, Some(_)) => Answer::Panic,
                (None, None) => Answer::Normal,
            };
            let guard = guards[place];
            let pattern = &pages().patterns[place];
            assert_eq!(floe::guard::ask(guard, &table).answer, want as u64, "{limits:?} after {pattern:?}");
            guards.extend([0, 1].map(|outcome| floe::guard::tell(guard, &table, outcome).guard));
        }
    }
}

/// RowMiss(x) says that x misses in a row never happen, x from 1 to 16: after x-1 panic, before normal, then lost.
#[test]
fn row_misses() {
    for x in 1..=16 {
        let (mut table, mut work) = (vec![0; LONGEST_TABLE], vec![0; WORK_ENTRIES]);
        let built = floe::builder::build(&[0, 0, 0, 5, 1, 1, 3, x, 0], &mut work, &mut table);
        let table = &table[..built.length as usize];
        let mut guard = floe::guard::start(table).guard;
        for misses in 0..=x + 1 {
            let want = match misses + 1 {
                next if next < x => Answer::Normal,
                next if next == x => Answer::Panic,
                _ => Answer::Lost,
            };
            assert_eq!(floe::guard::ask(guard, table).answer, want as u64, "RowMiss({x}) after {misses} misses");
            guard = floe::guard::tell(guard, table, 0).guard;
        }
    }
}

/// The guard is what its whole story says. "Fifteen hits in a row, one job less than the longest window, bring it back to
/// state 0 unless it is lost."
#[test]
fn long_runs_on_tables_of_sets() {
    let mut draw = Draw::new(63);
    for _ in 0..cases(120) {
        let set = draw.set();
        let states = table::states(&set);
        let table = table::bytes(&states);
        let (mut guard, mut story) = (FRESH, Story::default());
        for job in 0..500 {
            let panic = ask(guard, &table) == Ok(Answer::Panic);
            let miss = draw.one_in(2) && (!panic || draw.one_in(100));
            (guard, _) = agree_on_guard(guard, &table, u8::from(!miss));
            if job < 60 {
                story.tell(&set, u8::from(!miss));
                assert_eq!(guard, story.guard(&states), "{story:?} under {set:?}");
            }
        }
        let hits = (0..HELD).fold(guard, |guard, _| agree_on_guard(guard, &table, 1).0);
        assert_eq!(hits.count, 500 + HELD as u64);
        assert!(guard.lost || hits == Guard { count: hits.count, ..FRESH });
    }
}

/// On the largest table of a limit alone, by its states and by the story: AnyHit(8,16).
#[test]
fn on_a_table_of_12_870_states() {
    let set = [Limit { kind: 0, x: 8, k: 16 }];
    let states = table::states(&set);
    let table = table::bytes(&states);
    let mut draw = Draw::new(64);
    let (mut guard, mut story) = (FRESH, Story::default());
    let mut highest = 0;
    for _ in 0..cases(60) {
        let panic = ask(guard, &table) == Ok(Answer::Panic);
        let outcome = u8::from(panic || draw.one_in(2));
        (guard, _) = agree_on_guard(guard, &table, outcome);
        story.tell(&set, outcome);
        assert_eq!(guard, story.guard(&states), "{story:?}");
        highest = highest.max(guard.state);
    }
    assert!(highest > 2048, "{highest}");
    let back = (0..HELD).fold(guard, |guard, _| agree_on_guard(guard, &table, 1).0);
    assert_eq!(back, Guard { count: back.count, ..FRESH });
}

/// AnyMiss(1,16): fourteen hits after a miss don't bring the guard back yet, the fifteenth does.
#[test]
fn fifteen_hits() {
    let table = table::bytes(&table::states(&[Limit { kind: 2, x: 1, k: 16 }]));
    let mut guard = agree_on_guard(FRESH, &table, 0).0;
    for hits in 1..=15 {
        assert_eq!(ask(guard, &table), Ok(Answer::Panic), "after {} hits", hits - 1);
        guard = agree_on_guard(guard, &table, 1).0;
        assert_eq!(guard.state == 0, hits == 15, "after {hits} hits");
    }
    assert_eq!(guard, Guard { count: 16, ..FRESH });
}

/// A guard's state may have 15 bits: 32,767 is below n where n is 32,768, "n is 0 or more than 32,768" beyond.
#[test]
fn the_highest_states() {
    let table = |n: usize| table::bytes(&vec![table::State { miss: Some(n - 1), hit: 0 }; n]);
    let most = table(MOST_STATES);
    assert_eq!((most.len(), agree_on_start(&most)), (LONGEST_TABLE, 0));
    for (state, want) in [(0, 0), (32_766, 0), (32_767, 0), (32_768, 12), (65_535, 12)] {
        let (told, refused) = agree_on_guard(Guard { state, ..FRESH }, &most, 0);
        assert_eq!((refused, told.state), if want == 0 { (0, 32_767) } else { (want, state) });
    }
    let beyond = table(MOST_STATES + 1);
    assert_eq!(agree_on_start(&beyond), 12);
    assert_eq!(agree_on_guard(FRESH, &beyond, 1).1, 12);
}
