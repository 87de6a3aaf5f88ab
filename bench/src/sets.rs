//! Reading and writing a set of eight limits.

use std::hint::black_box;

use floelinnet_tests::floe;
use floelinnet_tests::reference::limits::Limit;
use floelinnet_tests::reference::sets::bytes;

use crate::clock::{side_by_side, use_up};
use crate::figures::{Figure, Figures, Unit};
use crate::plain;

pub fn measure(figures: &mut Figures) {
    let limits: Vec<Limit> = (0..8).map(|number| Limit { kind: number % 3, x: number, k: 5 + number }).collect();
    let set = bytes(&limits);
    let read = floe::sets::read_set(&set);
    let plain_read = plain::sets::read(&set).expect("the set is accepted");
    assert_eq!(read.refused, 0);
    let times = side_by_side(&mut [&mut || use_up(floe::sets::read_set(black_box(&set))), &mut || {
        use_up(plain::sets::read(black_box(&set)))
    }]);
    figures.add(Figure {
        what: "read a set",
        input: "eight limits, accepted",
        buffers: "30 bytes, read just before; none written",
        unit: Unit::Nanoseconds,
        archive: times[0],
        beside: "plain reader",
        plain: times[1],
    });

    let (mut bytes, mut plain_bytes) = ([0; 30], [0; 30]);
    assert_eq!(floe::sets::write_set(read.set, &mut bytes).length, 30);
    assert_eq!(plain::sets::write(&plain_read, &mut plain_bytes), Ok(30));
    assert!(bytes[..] == set && plain_bytes[..] == set);
    let times = side_by_side(&mut [
        &mut || use_up(floe::sets::write_set(black_box(read.set), black_box(&mut bytes))),
        &mut || use_up(plain::sets::write(black_box(&plain_read), black_box(&mut plain_bytes))),
    ]);
    figures.add(Figure {
        what: "write a set",
        input: "eight limits, accepted",
        buffers: "30 bytes, written",
        unit: Unit::Nanoseconds,
        archive: times[0],
        beside: "plain writer",
        plain: times[1],
    });
}
