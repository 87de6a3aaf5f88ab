//! floe_read_set against the reference.

use floelinnet_tests::damage::{damage, faulty_set, mend_length};
use floelinnet_tests::draw::{cases, Draw};
use floelinnet_tests::reference::limits::{accepted_limits, allowed_limits, limits_nothing};
use floelinnet_tests::reference::sets;
use floelinnet_tests::{expected, floe};

/// Both answers agree; gives the number of the refusal.
fn agree(set: &[u8]) -> usize {
    let want = expected::set_read(sets::read(set));
    assert_eq!(floe::sets::read_set(set), want, "read_set {set:02X?}");
    want.refused as usize
}

#[test]
fn every_single_limit_of_three_bytes() {
    let mut seen = [0; 22];
    for number in 0..1u32 << 24 {
        let [_, kind, x, k] = number.to_be_bytes();
        seen[agree(&[0, 0, 0, 5, 1, 1, kind, x, k])] += 1;
    }
    // The table of kinds allows 3 times 152 limits with a k, and 16 without. Of those with a k, one for each kind and k
    // limits nothing.
    assert_eq!((seen[0] + seen[21], allowed_limits().len()), (472, 472));
    assert_eq!((seen[0], accepted_limits().len(), seen[21]), (424, 424, 48));
    assert_eq!(seen.iter().sum::<usize>(), 1 << 24);
}

/// Every count of bytes up to 40 with every c, true and false length fields, right and wrong versions.
#[test]
fn every_head() {
    let mut seen = [0; 22];
    for length in 0..=40 {
        for c in 0..=255 {
            for version in [0, 1, 2, 255] {
                let mut set = vec![1; length];
                set.iter_mut().skip(4).zip([version, c]).for_each(|(byte, value)| *byte = value);
                mend_length(&mut set);
                seen[agree(&set)] += 1;
                for place in 0..length.min(4) {
                    for change in [1, 128, 255] {
                        set[place] = set[place].wrapping_add(change);
                        seen[agree(&set)] += 1;
                        set[place] = set[place].wrapping_sub(change);
                    }
                }
            }
        }
    }
    assert!((1..=4).all(|number| seen[number] > 0), "{seen:?}");
    assert_eq!(seen[0], 8, "c times RowHit(1,1) for c from 1 to 8");
}

#[test]
fn sets_that_are_allowed() {
    let mut draw = Draw::new(1);
    for _ in 0..cases(100_000) {
        let count = 1 + draw.below(8);
        let limits: Vec<_> = (0..count).map(|_| draw.limit()).collect();
        assert_eq!(agree(&sets::bytes(&limits)), if limits_nothing(&limits) { 21 } else { 0 });
    }
}

/// Eight limits that limit nothing, and then any limit in the place of one of them: it alone decides.
#[test]
fn one_limit_among_idle_ones() {
    let mut draw = Draw::new(4);
    for limit in allowed_limits() {
        let mut limits = draw.idle_set();
        limits.resize(8, limits[0]);
        assert_eq!(agree(&sets::bytes(&limits)), 21, "{limits:?}");
        limits[draw.below(8)] = limit;
        assert_eq!(agree(&sets::bytes(&limits)), if limits_nothing(&[limit]) { 21 } else { 0 }, "{limits:?}");
    }
}

#[test]
fn damaged_sets() {
    let mut draw = Draw::new(2);
    let mut seen = [0; 22];
    for _ in 0..cases(300_000) {
        let mut set = sets::bytes(&if draw.one_in(8) { draw.idle_set() } else { draw.set() });
        damage(&mut draw, &mut set);
        seen[agree(&set)] += 1;
    }
    assert!([0, 1, 2, 3, 4, 5, 6, 7, 21].iter().all(|&number| seen[number] > 100), "{seen:?}");
}

#[test]
fn several_faults_at_once() {
    let mut draw = Draw::new(3);
    let mut seen = [0; 22];
    for _ in 0..cases(300_000) {
        seen[agree(&faulty_set(&mut draw))] += 1;
    }
    assert!([0, 1, 2, 3, 4, 5, 6, 7, 21].iter().all(|&number| seen[number] > 100), "{seen:?}");
}
