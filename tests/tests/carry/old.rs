//! Records of version 1, which the archive reads and doesn't write: laid out by the reference, or by hand.

use floelinnet_tests::draw::{cases, Draw};
use floelinnet_tests::reference::carry::{old_record, record, OLD_HELD};
use floelinnet_tests::reference::guard::{tell, Answer, Guard, Story, FRESH, HELD};
use floelinnet_tests::reference::limits::{
    allowed_limits, limits_nothing, limits_within, width, Limit, OLD_LONGEST_WINDOW,
};
use floelinnet_tests::reference::sets;
use floelinnet_tests::{expected, floe};

use crate::{walked_within, Walked};

/// As the version before wrote it, by hand: a guard with the set AnyHit(1,2) that was told one miss, and goes on.
#[test]
fn worked() {
    let table = [0, 0, 0, 0x0B, 1, 0, 2, 0, 1, 0, 0, 0xFF, 0xFF, 0, 0];
    let mut stored = vec![0x00, 0x00, 0x00, 0x1E, 0x01, 0x00, 0x00, 0x00, 0x05, 0x01, 0x01, 0x00, 0x01, 0x02];
    stored.extend([0x01, 0x01, 0x01, 0x01, 0x01, 0x01, 0x01, 0x01, 0x01, 0x01, 0x00]);
    stored.extend([0x00, 0x00, 0x00, 0x00, 0x00, 0x00, 0x00, 0x01, 0x00]);
    let missed = floe::guard::tell(floe::guard::new(), &table, 0).guard;
    assert_eq!(floe::carry::read(&stored, &table), floe::Started { refused: 0, at: 0, guard: missed });
    assert_eq!(floe::guard::ask(missed, &table).answer, Answer::Panic as u64);
}

/// The guard that its record of version 1 gives: with hits in the places of the four oldest outcomes.
fn without_oldest(guard: Guard) -> Guard {
    let mut outcomes = guard.outcomes;
    outcomes[..HELD - OLD_HELD].fill(true);
    Guard { outcomes, ..guard }
}

/// A guard is told, is switched off with a record of version 1, and goes on beside the one that was never switched off,
/// through later changes of version 2 as well. It hears the same, and four outcomes later is the same.
fn goes_on(draw: &mut Draw, limits: &[Limit], walked: &Walked) -> Answer {
    let Walked { set, table, states, .. } = walked;
    let (mut never, mut story) = (FRESH, Story::default());
    let tell_both = |draw: &mut Draw, story: &mut Story, guard: Guard| {
        let panic = story.answer(limits) == Answer::Panic;
        let miss = draw.one_in(2) && (!panic || draw.one_in(30));
        story.tell(limits, u8::from(!miss));
        (u8::from(!miss), tell(guard, table, u8::from(!miss)).unwrap())
    };
    for _ in 0..draw.below(30) {
        (_, never) = tell_both(draw, &mut story, never);
    }
    let mut changed = floe::carry::read(&old_record(never, set), table);
    assert_eq!(changed, expected::started(Ok(without_oldest(never))), "{story:?} under {limits:?}");
    for later in 1..=20 {
        let answer = story.answer(limits);
        let asked = floe::guard::ask(changed.guard, table);
        assert_eq!((asked.refused, asked.answer), (0, answer as u64), "{story:?} under {limits:?}");
        let outcome;
        (outcome, never) = tell_both(draw, &mut story, never);
        assert_eq!(never, story.guard(states), "{story:?} under {limits:?}");
        let told = floe::guard::tell(changed.guard, table, outcome);
        assert_eq!((told.refused, told.guard.state), (0, never.state), "{story:?} under {limits:?}");
        if !never.lost && later >= HELD - OLD_HELD {
            assert_eq!(told.guard, expected::guard(never), "{story:?} under {limits:?}");
        }
        changed.guard = told.guard;
        if draw.one_in(3) {
            let mut bytes = vec![7; record(FRESH, set).len()];
            assert_eq!(floe::carry::write(changed.guard, set, &mut bytes).length, bytes.len() as u64);
            assert_eq!(bytes[4], 2, "only version 2 is written");
            changed = floe::carry::read(&bytes, table);
            assert_eq!((changed.refused, changed.guard), (0, told.guard), "{story:?} under {limits:?}");
        }
    }
    story.answer(limits)
}

/// Every limit with a window of at most 12 jobs alone, and sets of such limits by chance.
#[test]
fn as_one_never_switched_off() {
    let mut draw = Draw::new(201);
    let alone = limits_within(OLD_LONGEST_WINDOW).into_iter().map(|limit| Walked::new(vec![limit]));
    let alone: Vec<Walked> = alone.collect();
    let by_chance = walked_within(&mut draw, OLD_LONGEST_WINDOW, cases(60));
    let mut heard = [0; 3];
    for walked in alone.iter().chain(&by_chance) {
        for _ in 0..3 {
            heard[goes_on(&mut draw, &walked.limits, walked) as usize] += 1;
        }
    }
    assert!(heard.iter().all(|&times| times > 30), "{heard:?}");
}

/// Refusal 20 for each limit with a window of more than 12 jobs, in any place of a set, and for no other. The same guard
/// and set in a record of version 2 are taken. A limit that limits nothing is refused by 21, alone, in both versions.
#[test]
fn windows_that_reach_further_back() {
    let mut draw = Draw::new(202);
    let every_pattern_walked = [0, 0, 0, 7, 1, 0, 1, 0, 0, 0, 0];
    let mut refused = 0;
    for limit in allowed_limits() {
        let place = draw.below(8);
        let mut limits = vec![Limit { kind: 2, x: 11, k: 12 }; 8];
        limits[place] = limit;
        for limits in [&[limit][..], &limits] {
            let set = sets::bytes(limits);
            let guard = Guard { state: 0, ..draw.guard(1) };
            let by = |refused: u64| floe::Started { refused, at: 0, guard: floe::guard::new() };
            let idle = limits_nothing(limits);
            let want = match width(limit) > OLD_LONGEST_WINDOW {
                _ if idle => by(21),
                true => by(20),
                false => expected::started(Ok(without_oldest(guard))),
            };
            assert_eq!(floe::carry::read(&old_record(guard, &set), &every_pattern_walked), want, "{limits:?}");
            refused += usize::from(want.refused == 20);
            let read = floe::carry::read(&record(guard, &set), &every_pattern_walked);
            assert_eq!(read, if idle { by(21) } else { expected::started(Ok(guard)) }, "{limits:?}");
        }
    }
    // 3 times 62 limits with a k of 13 to 16, and RowMiss(13) to RowMiss(16). Alone 3 times 4 of them limit nothing.
    assert_eq!(refused, 2 * (3 * 62 + 4) - 3 * 4);
}
