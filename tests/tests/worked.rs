//! RULES, Patterns to try, by the reference and by the archive.

use floelinnet_tests::reference::limits::{panics, set_keeps, Limit};
use floelinnet_tests::reference::table::{bytes, states, WORK_ENTRIES};
use floelinnet_tests::reference::verdict::{lost, Lost};
use floelinnet_tests::reference::{compare, sets};
use floelinnet_tests::{expected, floe};

fn any_hit(x: u8, k: u8) -> Limit {
    Limit { kind: 0, x, k }
}

fn row_hit(x: u8, k: u8) -> Limit {
    Limit { kind: 1, x, k }
}

fn any_miss(x: u8, k: u8) -> Limit {
    Limit { kind: 2, x, k }
}

fn row_miss(x: u8) -> Limit {
    Limit { kind: 3, x, k: 0 }
}

fn pattern(digits: &str) -> Vec<u8> {
    digits.bytes().map(|digit| digit - b'0').collect()
}

/// None says kept, else the job at which it is lost and the first job of the window.
fn judged(limit: Limit, digits: &str, want: Option<(usize, i64)>) {
    let pattern = pattern(digits);
    let want = want.map(|(job, first)| Lost { job, limit: 0, first });
    assert_eq!(lost(&[limit], &pattern), want, "{limit:?} on {digits}");
    let found = floe::verdict::judge(&sets::bytes(&[limit]), &pattern);
    assert_eq!(found, expected::verdict(Ok(want)), "{limit:?} on {digits}");
}

/// The empty text says that the first covers the second.
fn compared(a: Limit, b: Limit, digits: &str) {
    let want = (!digits.is_empty()).then(|| pattern(digits));
    assert_eq!(compare::between(&[a], &[b]), want, "{a:?} with {b:?}");
    let found = floe::compare::compare(&sets::bytes(&[a]), &sets::bytes(&[b]));
    assert_eq!(found.pattern[..found.length as usize], pattern(digits), "{a:?} with {b:?}");
    assert_eq!(found.covers, u64::from(digits.is_empty()));
}

#[test]
fn tables() {
    let rows: [(&[Limit], &[u8]); 3] = [
        (&[any_hit(1, 2)], &[0, 0, 0, 0x0B, 1, 0, 2, 0, 1, 0, 0, 0xFF, 0xFF, 0, 0]),
        (&[any_hit(1, 1), row_hit(3, 5)], &[0, 0, 0, 7, 1, 0, 1, 0xFF, 0xFF, 0, 0]),
        (
            &[row_hit(2, 4), any_miss(1, 3), any_hit(2, 3)],
            &[0, 0, 0, 0x0F, 1, 0, 3, 0, 1, 0, 0, 0xFF, 0xFF, 0, 2, 0xFF, 0xFF, 0, 0],
        ),
    ];
    for (limits, table) in rows {
        for &limit in limits {
            assert_eq!(bytes(&states(&[limit])), table, "{limit:?} alone");
            let mut room = vec![0; table.len()];
            let built = floe::builder::build(&sets::bytes(&[limit]), &mut vec![0; WORK_ENTRIES], &mut room);
            assert_eq!((built.refused, &room[..]), (0, table), "{limit:?} alone");
        }
    }
}

#[test]
fn verdicts() {
    judged(any_hit(2, 4), "11001101", None);
    judged(any_hit(1, 2), "11001101", Some((4, 3)));
    for misses in 0..=4 {
        judged(any_hit(3, 10), &("1010101001".to_owned() + &"0".repeat(misses)), None);
    }
    judged(any_hit(3, 10), "101010100100000", Some((15, 6)));
    judged(row_hit(4, 10), "1111111000", None);
    judged(row_hit(4, 10), "11111110000", Some((11, 5)));
    judged(row_hit(3, 7), "0111000", Some((7, 3)));
    judged(row_hit(2, 10), "1100101010", Some((10, 2)));
    judged(any_miss(2, 5), "0011100", None);
    judged(any_miss(3, 7), "0011100", Some((7, 1)));
    judged(any_miss(3, 7), "0001111", None);
    judged(any_miss(2, 5), "0001111", Some((3, -1)));
    judged(row_miss(2), "0", None);
    judged(row_miss(2), "00", Some((2, 1)));
    judged(row_hit(2, 5), "000", Some((3, 0)));
    judged(row_hit(2, 5), "00011", Some((3, 0)));
    judged(any_hit(12, 12), "0", Some((1, -10)));
    judged(any_hit(16, 16), "0", Some((1, -14)));
    judged(any_hit(1, 1), "", None);
}

#[test]
fn panic() {
    assert!(panics(&[row_hit(4, 10)], &pattern("1111111000")));
    assert!(panics(&[row_miss(2)], &pattern("0")));
    assert!(!panics(&[row_miss(2)], &pattern("00")), "lost is not panic");
    assert!(set_keeps(&[any_hit(1, 1)], &[]) && panics(&[any_hit(1, 1)], &[]));
}

#[test]
fn comparisons() {
    compared(any_miss(2, 5), any_miss(3, 7), "0011100");
    compared(any_miss(3, 7), any_miss(2, 5), "000");
    compared(any_hit(1, 2), any_hit(5, 10), "");
    compared(any_hit(5, 10), any_hit(1, 2), "00");
    compared(any_miss(2, 15), any_miss(2, 16), "0011111111111110");
}

#[test]
fn refusals() {
    let refused = |limits: &[Limit]| floe::sets::read_set(&sets::bytes(limits)).refused;
    assert_eq!(refused(&[any_hit(1, 16)]), 0);
    assert_eq!(refused(&[any_hit(1, 17)]), 6);
    assert_eq!(refused(&[row_miss(16)]), 0);
    assert_eq!(refused(&[row_miss(17)]), 7);
    assert_eq!(refused(&[any_hit(1, 2); 8]), 0);
    assert_eq!(refused(&[any_hit(1, 2); 9]), 3);
    assert_eq!(refused(&[any_miss(12, 12)]), 21);
    assert_eq!(refused(&[any_miss(11, 12)]), 0);
    assert_eq!(refused(&[any_miss(12, 12), any_hit(1, 2)]), 0);
}
