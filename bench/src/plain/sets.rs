//! A plain reader and a plain writer of sets.

/// How many jobs the longest window has.
pub const LONGEST_WINDOW: usize = 16;

#[derive(Clone, Copy, Default)]
pub struct Limit {
    pub kind: u8,
    pub x: u8,
    pub k: u8,
}

#[derive(Clone, Copy, Default)]
pub struct Set {
    count: usize,
    limits: [Limit; 8],
}

impl Set {
    pub fn limits(&self) -> &[Limit] {
        &self.limits[..self.count]
    }
}

/// A number of refusal, and what is returned beside it.
pub type Refusal = (u8, usize);

#[inline(never)]
pub fn read(bytes: &[u8]) -> Result<Set, Refusal> {
    if bytes.len() < 6 {
        return Err((1, 0));
    }
    let length = u32::from_be_bytes([bytes[0], bytes[1], bytes[2], bytes[3]]) as usize;
    if length != bytes.len() - 4 {
        return Err((1, 0));
    }
    if bytes[4] != 1 {
        return Err((2, 0));
    }
    let count = usize::from(bytes[5]);
    if count == 0 || count > 8 {
        return Err((3, 0));
    }
    if length != 2 + 3 * count {
        return Err((4, 0));
    }
    let mut limits = [Limit::default(); 8];
    for (number, triple) in bytes[6..].chunks_exact(3).enumerate() {
        let limit = Limit { kind: triple[0], x: triple[1], k: triple[2] };
        test(&limit, number)?;
        limits[number] = limit;
    }
    if limits[..count].iter().all(idle) {
        return Err((21, 0));
    }
    Ok(Set { count, limits })
}

#[inline(never)]
pub fn write(set: &Set, bytes: &mut [u8]) -> Result<usize, Refusal> {
    if set.count == 0 || set.count > 8 {
        return Err((3, 0));
    }
    for (number, limit) in set.limits().iter().enumerate() {
        test(limit, number)?;
    }
    if set.limits().iter().all(idle) {
        return Err((21, 0));
    }
    let length = 6 + 3 * set.count;
    if bytes.len() < length {
        return Err((9, length));
    }
    bytes[..4].copy_from_slice(&(length as u32 - 4).to_be_bytes());
    bytes[4] = 1;
    bytes[5] = set.count as u8;
    for (triple, limit) in bytes[6..].chunks_exact_mut(3).zip(set.limits()) {
        triple.copy_from_slice(&[limit.kind, limit.x, limit.k]);
    }
    Ok(length)
}

/// Whether nothing breaks the limit.
fn idle(limit: &Limit) -> bool {
    match limit.kind {
        0 | 1 => limit.x == 0,
        2 => limit.x == limit.k,
        _ => false,
    }
}

fn test(limit: &Limit, number: usize) -> Result<(), Refusal> {
    if limit.kind > 3 {
        return Err((5, number));
    }
    const LONGEST: u8 = LONGEST_WINDOW as u8;
    let (ks, xs) = if limit.kind == 3 { (0..=0, 1..=LONGEST) } else { (1..=LONGEST, 0..=limit.k) };
    if !ks.contains(&limit.k) {
        return Err((6, number));
    }
    if !xs.contains(&limit.x) {
        return Err((7, number));
    }
    Ok(())
}
