//! floe_check_table against the reference.

use floelinnet_tests::damage::{damage, drawn_table, mend_length};
use floelinnet_tests::draw::{cases, Draw};
use floelinnet_tests::reference::table::{self, MOST_STATES};
use floelinnet_tests::{expected, floe};

fn agree(bytes: &[u8]) -> usize {
    let want = expected::checked(table::check(bytes));
    assert_eq!(floe::table::check_table(bytes), want, "check_table {bytes:02X?}");
    want.refused as usize
}

#[test]
fn tables_of_sets() {
    let mut draw = Draw::new(51);
    for _ in 0..cases(100) {
        assert_eq!(agree(&table::bytes(&table::states(&draw.set()))), 0);
    }
}

#[test]
fn damaged_tables() {
    let mut draw = Draw::new(52);
    let mut seen = [0; 13];
    for _ in 0..cases(300_000) {
        let mut bytes = drawn_table(&mut draw, 12);
        seen[agree(&bytes)] += 1;
        damage(&mut draw, &mut bytes);
        seen[agree(&bytes)] += 1;
    }
    assert!([0, 10, 11, 12].iter().all(|&number| seen[number] > 100), "{seen:?}");
}

/// Every n from 0 to 65,535 in a table that isn't as long as n says, and those near an edge in one that is.
#[test]
fn every_count_of_states() {
    let mut seen = [0; 13];
    for n in 0..=65_535usize {
        let edges = [0, 256, 2048, 4096, 16_384, MOST_STATES, 65_535];
        let near = edges.iter().any(|&edge| n.abs_diff(edge) < 4);
        let mut bytes = vec![0; 7 + 4 * if near { n } else { n % 3 }];
        bytes[4] = 1;
        bytes[5..7].copy_from_slice(&(n as u16).to_be_bytes());
        mend_length(&mut bytes);
        let refused = agree(&bytes);
        assert_eq!(refused, if near && (1..=MOST_STATES).contains(&n) || n < 3 && n > 0 { 0 } else { 12 }, "{n}");
        seen[refused] += 1;
        bytes.push(0);
        mend_length(&mut bytes);
        seen[agree(&bytes)] += 1;
    }
    // 1 to 3, seven around each edge from 256 to 16,384, and 32,765 to 32,768.
    assert_eq!(seen[0], 3 + 4 * 7 + 4);
}
