//! Bytes of a set, a table, a log or a record with faults in them, often several at once.

use crate::draw::Draw;
use crate::reference::carry::{old_record, record, HEAD, OLD_TAIL, TAIL};
use crate::reference::{night_log, sets};

/// Values next to a bound of the rules, and those that a wrong width or sign would confuse.
const TELLING: [u8; 18] = [0, 1, 2, 3, 4, 5, 7, 8, 9, 11, 12, 13, 15, 16, 17, 127, 128, 255];

/// One to four edits. Half of the results get a true length field again, so that the later tests are reached.
pub fn damage(draw: &mut Draw, bytes: &mut Vec<u8>) {
    for _ in 0..1 + draw.below(4) {
        edit(draw, bytes);
    }
    if draw.one_in(2) {
        mend_length(bytes);
    }
}

fn edit(draw: &mut Draw, bytes: &mut Vec<u8>) {
    let place = draw.below(bytes.len().max(1));
    match draw.below(8) {
        0 => bytes.truncate(place),
        1 => bytes.extend((0..1 + draw.below(6)).map(|_| 1)),
        2 => bytes.insert(place, draw.of(&TELLING)),
        3 if place < bytes.len() => drop(bytes.remove(place)),
        4 if place < bytes.len() => bytes[place] = draw.byte(),
        // The version and the counts stand near the front.
        5 if bytes.len() > 6 => bytes[4 + place % 3] = draw.of(&TELLING),
        _ if place < bytes.len() => bytes[place] = draw.of(&TELLING),
        _ => bytes.push(draw.byte()),
    }
}

/// "four bytes, the length field, one number that says how many bytes follow these four"
pub fn mend_length(bytes: &mut [u8]) {
    if bytes.len() >= 4 {
        let rest = (bytes.len() - 4) as u32;
        bytes[..4].copy_from_slice(&rest.to_be_bytes());
    }
}

/// A set in which each of the faults 1 to 7 and 21 is present by its own chance, so that the order of the tests shows.
pub fn faulty_set(draw: &mut Draw) -> Vec<u8> {
    let mut limits = if draw.one_in(3) { draw.idle_set() } else { draw.set() };
    for limit in &mut limits {
        if draw.one_in(8) {
            limit.kind = draw.of(&[4, 5, 128, 255]);
        }
        if draw.one_in(8) {
            limit.k = draw.of(&[0, 1, 16, 17, 255]);
        }
        if draw.one_in(8) {
            limit.x = draw.of(&[limit.k.saturating_add(1), 0, 16, 17, 255]);
        }
    }
    let mut bytes = sets::bytes(&limits);
    if draw.one_in(6) {
        bytes[5] = draw.of(&[0, 1, 8, 9, 255]);
    }
    if draw.one_in(6) {
        bytes[4] = draw.of(&[0, 2, 129]);
    }
    if draw.one_in(6) {
        bytes.truncate(4 + draw.below(bytes.len() - 4));
        mend_length(&mut bytes);
    }
    if draw.one_in(10) {
        bytes[draw.below(4)] ^= 1 << draw.below(8);
    }
    bytes
}

/// Bytes of a set that are mostly refused, by faults of either kind.
pub fn spoilt_set(draw: &mut Draw) -> Vec<u8> {
    if draw.one_in(2) {
        return faulty_set(draw);
    }
    let mut set = sets::bytes(&draw.set());
    damage(draw, &mut set);
    set
}

/// Bytes shaped like a table of up to `most` states, whose next states are mostly, but not all, below n.
pub fn drawn_table(draw: &mut Draw, most: usize) -> Vec<u8> {
    let n = 1 + draw.below(most);
    let faulty = draw.one_in(2);
    let next = |draw: &mut Draw, on_miss: bool| -> [u8; 2] {
        if on_miss && draw.one_in(4) {
            return [0xFF, 0xFF];
        }
        let beyond = [n, n + 1, 0xFFFE, 0xFFFF];
        let state = if faulty && draw.one_in(n) { draw.of(&beyond) } else { draw.below(n) };
        (state as u16).to_be_bytes()
    };
    let mut bytes = vec![0, 0, 0, 0, 1];
    bytes.extend((n as u16).to_be_bytes());
    for _ in 0..n {
        bytes.extend(next(draw, true));
        bytes.extend(next(draw, false));
    }
    mend_length(&mut bytes);
    bytes
}

/// A log in which 16 and each of the four faults of 15 is present by its own chance.
pub fn faulty_log(draw: &mut Draw) -> Vec<u8> {
    let jobs = draw.below(40);
    let mut bytes = night_log::log(&draw.pattern(jobs, 2));
    let unused = 8 * (bytes.len() - 9) - jobs;
    if unused > 0 && draw.one_in(3) {
        *bytes.last_mut().expect("a log has a head") |= 1 << draw.below(unused);
    }
    if draw.one_in(6) {
        bytes[8] = draw.of(&[0, 1, 7, 8, 9, bytes[8].wrapping_sub(1), bytes[8] + 1, bytes[8] + 8, 255]);
    }
    if draw.one_in(8) {
        bytes[5 + draw.below(3)] = draw.of(&TELLING);
    }
    if draw.one_in(6) {
        bytes[4] = draw.of(&[0, 2, 129]);
    }
    if draw.one_in(6) {
        let length = draw.of(&[4, 8, 9, bytes.len() - 1, bytes.len() + 1]);
        bytes.resize(length, 0);
        mend_length(&mut bytes);
    }
    if draw.one_in(10) {
        bytes[draw.below(4)] ^= 1 << draw.below(8);
    }
    bytes
}

/// Bytes of a log that are mostly refused, by faults of either kind.
pub fn spoilt_log(draw: &mut Draw) -> Vec<u8> {
    if draw.one_in(2) {
        return faulty_log(draw);
    }
    let jobs = draw.below(40);
    let mut log = night_log::log(&draw.pattern(jobs, 2));
    damage(draw, &mut log);
    log
}

/// A record of either version.
fn drawn_record(draw: &mut Draw, set: &[u8]) -> Vec<u8> {
    let guard = draw.guard(1);
    if draw.one_in(2) {
        old_record(guard, set)
    } else {
        record(guard, set)
    }
}

/// A record in which 13, 19, 20, a fault of the set and each of the three faults of 18 is present by its own chance.
pub fn faulty_record(draw: &mut Draw) -> Vec<u8> {
    let set = if draw.one_in(4) { faulty_set(draw) } else { sets::bytes(&draw.set()) };
    let mut bytes = drawn_record(draw, &set);
    let tail = bytes.len() - HEAD - set.len();
    while draw.one_in(4) {
        let place = draw.below(tail - 9);
        bytes[HEAD + set.len() + place] = draw.of(&[2, 3, 128, 255]);
    }
    if draw.one_in(5) {
        *bytes.last_mut().expect("a record has a tail") = draw.of(&[2, 3, 128, 255]);
    }
    if draw.one_in(8) {
        bytes[4] = draw.of(&[0, 1, 2, 3, 129]);
    }
    if draw.one_in(8) {
        let least = draw.of(&[HEAD + OLD_TAIL, HEAD + TAIL]);
        let length = draw.of(&[4, least - 1, least, bytes.len() - 1, bytes.len() + 1]);
        bytes.resize(length, 0);
        mend_length(&mut bytes);
    }
    if draw.one_in(12) {
        bytes[draw.below(4)] ^= 1 << draw.below(8);
    }
    bytes
}

/// Bytes of a record that are mostly refused, by faults of either kind.
pub fn spoilt_record(draw: &mut Draw) -> Vec<u8> {
    if draw.one_in(2) {
        return faulty_record(draw);
    }
    let set = sets::bytes(&draw.set());
    let mut bytes = drawn_record(draw, &set);
    damage(draw, &mut bytes);
    bytes
}
