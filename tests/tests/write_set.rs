//! floe_write_set against the reference.

use floelinnet_tests::draw::{cases, Draw};
use floelinnet_tests::reference::limits::{accepted_limits, Limit};
use floelinnet_tests::reference::sets;
use floelinnet_tests::reference::table::{LONGEST_TABLE, WORK_ENTRIES};
use floelinnet_tests::{expected, floe};

/// Both answers agree, and the buffer holds the set's bytes and past them what it held; gives the number of the refusal.
fn agree(draw: &mut Draw, count: u64, places: [Limit; 8], room: usize) -> usize {
    let set = floe::Set { count, limits: places.map(|Limit { kind, x, k }| floe::Limit { kind, x, k }) };
    let before: Vec<u8> = (0..room).map(|_| draw.byte()).collect();
    let want = sets::write(count, &places, room);
    let mut found = before.clone();
    assert_eq!(floe::sets::write_set(set, &mut found), expected::written(&want), "write_set {set:?} into {room} bytes");
    let mut after = before;
    if let Ok(bytes) = &want {
        after[..bytes.len()].copy_from_slice(bytes);
        assert_eq!(sets::read(bytes).as_deref(), Ok(&places[..count as usize]), "what was written is read");
    }
    assert_eq!(found, after, "the buffer after write_set {set:?} into {room} bytes");
    want.map_or_else(|refusal| usize::from(refusal.number), |_| 0)
}

const NONE: Limit = Limit { kind: 0, x: 0, k: 0 };

/// One limit, with the same in the places that aren't in use: every x and k of every kind that there is, and of some that
/// there aren't.
#[test]
fn every_single_limit() {
    let mut draw = Draw::new(11);
    let mut seen = [0; 22];
    for kind in [0, 1, 2, 3, 4, 5, 127, 128, 255] {
        for number in 0..=u16::MAX {
            let [x, k] = number.to_be_bytes();
            seen[agree(&mut draw, 1, [Limit { kind, x, k }; 8], 9)] += 1;
        }
    }
    // The table of kinds allows 3 times 152 limits with a k, of which 3 times 16 limit nothing, and 16 without.
    assert_eq!((seen[0], accepted_limits().len(), seen[21]), (424, 424, 48));
    assert_eq!(seen[5], 5 << 16);
}

/// Any count, also one that no set has; any limits, those that aren't in use too; any buffer.
#[test]
fn any_set_any_buffer() {
    let mut draw = Draw::new(12);
    let mut seen = [0; 22];
    for _ in 0..cases(500_000) {
        let mut places = [NONE; 8];
        let idle = draw.one_in(4);
        for place in &mut places {
            *place = if idle { draw.idle_set()[0] } else { draw.limit() };
            if draw.one_in(20) {
                *place = Limit { kind: draw.below(6) as u8, x: draw.byte(), k: draw.below(19) as u8 };
            }
        }
        let count = draw.of(&[0, 1, 2, 3, 4, 5, 6, 7, 8, 9, 255, 256, 1 << 32, u64::MAX]);
        let needed = 6 + 3 * count.min(9) as usize;
        let room = draw.of(&[0, 1, 6, needed - 1, needed, needed, needed + 1, 40]);
        seen[agree(&mut draw, count, places, room)] += 1;
    }
    assert!([0, 3, 5, 6, 7, 9, 21].iter().all(|&number| seen[number] > 1000), "{seen:?}");
}

/// A caller who hands lengths on and looks at the last answer alone sees that limits were refused.
#[test]
fn refused_limits_handed_on() {
    let rows = [(0, 0, 1, 2), (9, 0, 1, 2), (1, 4, 1, 2), (1, 0, 1, 17), (1, 0, 3, 2), (1, 3, 0, 0), (1, 2, 12, 12)];
    for (count, kind, x, k) in rows {
        let set = floe::Set { count, limits: [floe::Limit { kind, x, k }; 8] };
        let (mut bytes, mut work, mut table) = ([7; 30], vec![7; WORK_ENTRIES], vec![7; LONGEST_TABLE]);
        let written = floe::sets::write_set(set, &mut bytes);
        let built = floe::builder::build(&bytes[..written.length as usize], &mut work, &mut table);
        let table = &table[..built.length as usize];
        let asked = floe::guard::ask(floe::guard::start(table).guard, table);
        assert_eq!((written.refused > 0, built.refused, asked.refused, asked.answer), (true, 1, 10, 3), "{set:?}");
    }
}
