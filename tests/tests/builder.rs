//! floe_build against the reference, with everything that was lent looked at afterwards.

use floelinnet_tests::damage::spoilt_set;
use floelinnet_tests::draw::{cases, Draw};
use floelinnet_tests::reference::limits::{accepted_limits, allowed_limits, limits_nothing, LONGEST_WINDOW};
use floelinnet_tests::reference::table::{LONGEST_TABLE, WORK_ENTRIES};
use floelinnet_tests::reference::{sets, table};
use floelinnet_tests::{expected, floe};

/// Places on both sides of a lent buffer that the archive must not reach.
const MARGIN: usize = 16;

/// Builds in buffers full of chance numbers. "Nothing that was lent is written, with one exception. A builder that is
/// past 8, refused by none of 1 to 7, 21 and 8, gives the first 131,072 entries of the work area back as zeros, where it
/// builds and where it refuses by 9." Refused or not, nothing is ever written to the entries of the work area after those,
/// "to the bytes of a table buffer after 7+4n".
fn agree(draw: &mut Draw, set: &[u8], work_entries: usize, room: usize) -> u64 {
    let mut work: Vec<u16> = (0..work_entries + 2 * MARGIN).map(|_| draw.number() as u16).collect();
    let mut bytes: Vec<u8> = (0..room + 2 * MARGIN).map(|_| draw.byte()).collect();
    let (mut want_work, mut want_bytes) = (work.clone(), bytes.clone());
    let answer = table::build(set, work_entries, room);
    if answer.as_ref().map_or_else(|refusal| refusal.number == 9, |_| true) {
        want_work[MARGIN..][..WORK_ENTRIES].fill(0);
    }
    if let Ok(table) = &answer {
        want_bytes[MARGIN..][..table.len()].copy_from_slice(table);
    }
    let lent_work = &mut work[MARGIN..][..work_entries];
    let lent_bytes = &mut bytes[MARGIN..][..room];
    let built = floe::builder::build(set, lent_work, lent_bytes);
    assert_eq!(built, expected::built(answer), "build {set:02X?}, {work_entries} work entries, room {room}");
    assert!(work == want_work, "work area after build {set:02X?}, {work_entries} entries, room {room}");
    assert!(bytes == want_bytes, "table buffer after build {set:02X?}, {work_entries} entries, room {room}");
    built.refused
}

/// Of windows up to 16: "the first 131,072 entries" are all cleared, for the shortest too.
#[test]
fn every_limit_alone() {
    let mut draw = Draw::new(41);
    for limit in allowed_limits() {
        let want = if limits_nothing(&[limit]) { 21 } else { 0 };
        assert_eq!(agree(&mut draw, &sets::bytes(&[limit]), WORK_ENTRIES, LONGEST_TABLE), want);
    }
}

/// AnyHit(8,16) has 12,870 states: its table into a buffer that is just long enough, and one byte too short.
#[test]
fn the_largest_table_of_a_limit_alone() {
    let mut draw = Draw::new(45);
    let set = [0, 0, 0, 5, 1, 1, 0, 8, 16];
    let length = 7 + 4 * 12_870;
    assert_eq!(agree(&mut draw, &set, WORK_ENTRIES, length), 0);
    assert_eq!(agree(&mut draw, &set, WORK_ENTRIES, length - 1), 9);
    assert_eq!(agree(&mut draw, &set, WORK_ENTRIES - 1, length), 8);
}

#[test]
fn random_sets_and_rooms() {
    let mut draw = Draw::new(42);
    let mut refused = 0;
    for _ in 0..cases(200) {
        let limits = draw.set();
        let length = 7 + 4 * table::states(&limits).len();
        let room = draw.of(&[0, 6, length - 1, length, length + 1, LONGEST_TABLE]);
        let entries = draw.of(&[WORK_ENTRIES, WORK_ENTRIES + 1, WORK_ENTRIES + 5000]);
        refused += agree(&mut draw, &sets::bytes(&limits), entries, room) / 9;
    }
    assert!(refused > 20, "{refused}");
}

#[test]
fn refused_sets_and_work_areas() {
    let mut draw = Draw::new(43);
    let mut seen = [0; 22];
    for _ in 0..cases(1_500) {
        let set = spoilt_set(&mut draw);
        let entries = draw.of(&[0, 1, WORK_ENTRIES - 1, WORK_ENTRIES]);
        let room = draw.of(&[0, 7, 100]);
        seen[agree(&mut draw, &set, entries, room) as usize] += 1;
    }
    assert!((1..=8).chain([21]).all(|number| seen[number] > 10), "{seen:?}");
}

/// Builds with room for every set.
fn table_of(set: &[u8]) -> Vec<u8> {
    let mut bytes = vec![0; LONGEST_TABLE];
    let built = floe::builder::build(set, &mut vec![0; WORK_ENTRIES], &mut bytes);
    assert_eq!(built.refused, 0);
    bytes.truncate(built.length as usize);
    bytes
}

/// "every table of a set has a state that allows no miss", and fewer misses than the longest window has jobs, with nothing
/// before them, lead there.
#[test]
fn every_table_has_a_panic() {
    for limit in accepted_limits() {
        let table = table_of(&sets::bytes(&[limit]));
        let mut guard = floe::guard::start(&table).guard;
        let answers = [(); LONGEST_WINDOW].map(|()| {
            let answer = floe::guard::ask(guard, &table).answer;
            guard = floe::guard::tell(guard, &table, 0).guard;
            answer
        });
        // The first that isn't normal is panic.
        assert_eq!(answers.iter().find(|&&answer| answer != 0), Some(&1), "{limit:?}: {answers:?}");
    }
}

/// A built table passes the check, and walks a pattern exactly as far as the verdict keeps it.
#[test]
fn walked_against_the_verdict() {
    let mut draw = Draw::new(44);
    for _ in 0..cases(800) {
        let set = sets::bytes(&draw.set());
        let table = table_of(&set);
        assert_eq!(floe::table::check_table(&table).refused, 0);
        let rarity = draw.of(&[1, 2, 4]);
        let pattern = draw.pattern(200, rarity);
        let entry = |state: usize, outcome: u8| {
            let at = 7 + 4 * state + 2 * usize::from(outcome);
            u16::from_be_bytes([table[at], table[at + 1]])
        };
        let mut state = 0;
        let walked = pattern.iter().take_while(|&&outcome| {
            let next = entry(state, outcome);
            state = usize::from(next);
            next != 0xFFFF
        });
        let walked = walked.count() as u64;
        let floe::Verdict { kept, job, .. } = floe::verdict::judge(&set, &pattern);
        assert_eq!(walked, if kept == 1 { pattern.len() as u64 } else { job - 1 }, "{set:02X?} {pattern:?}");
    }
}
