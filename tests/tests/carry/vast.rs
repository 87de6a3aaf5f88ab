//! Lengths that 32 bits can't say, in memory of which few pages are touched: what is longer by 4,294,967,296 bytes than
//! its length field says is refused like anything else of a wrong length.

use floelinnet_tests::memory::Vast;
use floelinnet_tests::reference::carry;
use floelinnet_tests::reference::guard::FRESH;
use floelinnet_tests::{expected, floe};

/// AnyHit(1,2).
const SET: &[u8] = &[0, 0, 0, 5, 1, 1, 0, 1, 2];
const TABLE: &[u8] = &[0, 0, 0, 0x0B, 1, 0, 2, 0, 1, 0, 0, 0xFF, 0xFF, 0, 0];

/// These bytes, and zeros after them.
fn longer(bytes: &[u8]) -> Vast {
    let mut vast = Vast::new(bytes.len() + (1 << 32));
    vast[..bytes.len()].copy_from_slice(bytes);
    vast
}

#[test]
fn records() {
    let mut record = longer(&carry::record(FRESH, SET));
    for version in [1, 2] {
        record[4] = version;
        assert_eq!(floe::carry::read(&record, TABLE), expected::started(carry::read(&record, TABLE)));
        assert_eq!(floe::carry::read(&record, TABLE).refused, 18);
    }
}

#[test]
fn sets_and_tables() {
    let set = longer(SET);
    let guard = expected::guard(FRESH);
    for room in [0, 38, 100] {
        let mut record = vec![7; room];
        let want = floe::Written { refused: 1, at: 0, length: 0 };
        assert_eq!(floe::carry::write(guard, &set, &mut record), want);
        assert_eq!(record, vec![7; room]);
    }
    let want = floe::Started { refused: 10, at: 0, guard };
    assert_eq!(floe::carry::read(&carry::record(FRESH, SET), &longer(TABLE)), want);
}

/// A buffer may be that long, and then has room enough.
#[test]
fn buffers() {
    let mut record = Vast::new(1 << 32);
    let want = floe::Written { refused: 0, at: 0, length: 38 };
    assert_eq!(floe::carry::write(expected::guard(FRESH), SET, &mut record), want);
    assert_eq!(record[..38], carry::record(FRESH, SET));
    assert_eq!(record[38..4096], vec![0; 4096 - 38]);
}
