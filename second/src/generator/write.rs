//! Records in bytes. Nothing is judged here.

pub type Premise = (u16, u16);

fn entries(out: &mut Vec<u8>, list: &[(usize, i32)]) {
    let map = list.iter().fold(0u16, |map, (i, _)| map | 1 << i);
    out.extend(map.to_le_bytes());
    list.iter().for_each(|(_, value)| out.extend(value.to_le_bytes()));
}

/// Mapped numbers: those that are not 0.
pub fn sparse(values: &[i32]) -> Vec<(usize, i32)> {
    values.iter().copied().enumerate().filter(|&(_, v)| v != 0).collect()
}

pub fn variable(cost: i32) -> Vec<u8> {
    [&b"V"[..], &cost.to_le_bytes()].concat()
}

/// The list is of bits, rising, and numbers; it may be a wrong one.
pub fn row_raw(letter: u8, list: &[(usize, i32)], rhs: i64) -> Vec<u8> {
    let mut out = vec![b'R', letter];
    entries(&mut out, list);
    out.extend(rhs.to_le_bytes());
    out
}

pub fn row(letter: u8, coefs: &[i32], rhs: i64) -> Vec<u8> {
    row_raw(letter, &sparse(coefs), rhs)
}

pub fn call(fields: [u8; 4]) -> Vec<u8> {
    [&b"F"[..], &fields].concat()
}

pub fn batch(start: u8, length: u32) -> Vec<u8> {
    [&[b'W', start][..], &length.to_le_bytes()].concat()
}

pub fn branch_raw(list: &[(usize, i32)], rhs: i64) -> Vec<u8> {
    let mut out = vec![b'B'];
    entries(&mut out, list);
    out.extend(rhs.to_le_bytes());
    out
}

pub fn branch(coefs: &[i32], rhs: i64) -> Vec<u8> {
    branch_raw(&sparse(coefs), rhs)
}

fn body(out: &mut Vec<u8>, premises: &[Premise], divisor: u32) {
    out.push(premises.len() as u8);
    for (place, multiplier) in premises {
        out.extend(place.to_le_bytes());
        out.extend(multiplier.to_le_bytes());
    }
    out.extend(divisor.to_le_bytes());
}

pub fn cut(premises: &[Premise], divisor: u32) -> Vec<u8> {
    let mut out = vec![b'C'];
    body(&mut out, premises, divisor);
    out
}

pub type Line = (Vec<Premise>, u32);

pub fn chain(lines: &[Line]) -> Vec<u8> {
    let mut out = vec![b'L', lines.len() as u8];
    lines.iter().for_each(|(premises, divisor)| body(&mut out, premises, *divisor));
    out
}

pub fn infer(clue: &[u8], places: &[u16]) -> Vec<u8> {
    let mut out = vec![b'I'];
    out.extend(clue);
    out.push(places.len() as u8);
    places.iter().for_each(|place| out.extend(place.to_le_bytes()));
    out
}

pub fn cutoff() -> Vec<u8> {
    vec![b'K']
}

pub fn take_raw(list: &[(usize, i32)]) -> Vec<u8> {
    let mut out = vec![b'T'];
    entries(&mut out, list);
    out
}

pub fn take(values: &[i32]) -> Vec<u8> {
    take_raw(&sparse(values))
}

pub fn drop(place: u16) -> Vec<u8> {
    [&b"D"[..], &place.to_le_bytes()].concat()
}

pub fn pin(places: &[u16]) -> Vec<u8> {
    let mut out = vec![b'P'];
    places.iter().for_each(|place| out.extend(place.to_le_bytes()));
    out
}
