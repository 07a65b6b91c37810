//! Jobs to begin from.

use super::rng::Rng;
use super::write;

#[derive(Clone)]
pub struct JobSpec {
    pub theory: u8,
    pub costs: Vec<i32>,
    pub rows: Vec<(u8, Vec<i32>, i64)>,
    pub calls: Vec<[u8; 4]>,
    pub batches: Vec<(u8, u32)>,
}

impl JobSpec {
    pub fn new(theory: u8, costs: &[i32]) -> JobSpec {
        JobSpec { theory, costs: costs.to_vec(), rows: vec![], calls: vec![], batches: vec![] }
    }

    /// Records after the theory letter, without the end.
    pub fn records(&self) -> Vec<Vec<u8>> {
        let mut list: Vec<Vec<u8>> = self.costs.iter().map(|&cost| write::variable(cost)).collect();
        list.extend(self.rows.iter().map(|(letter, coefs, rhs)| write::row(*letter, coefs, *rhs)));
        list.extend(self.calls.iter().map(|&fields| write::call(fields)));
        list.extend(self.batches.iter().map(|&(start, length)| write::batch(start, length)));
        list
    }

    pub fn bytes(&self) -> Vec<u8> {
        [vec![self.theory], self.records().concat(), b"E".to_vec()].concat()
    }

    pub fn n(&self) -> usize {
        self.costs.len()
    }

    pub fn unit(&self, i: usize, value: i32) -> Vec<i32> {
        let mut coefs = vec![0; self.n()];
        coefs[i] = value;
        coefs
    }

    /// Bounds of one variable as two rows.
    pub fn bound(&mut self, i: usize, low: i64, high: i64) {
        self.rows.push((b'L', self.unit(i, 1), high));
        self.rows.push((b'G', self.unit(i, 1), low));
    }
}

/// A boxed job, and its box.
pub struct Boxed {
    pub spec: JobSpec,
    pub low: Vec<i64>,
    pub high: Vec<i64>,
}

pub fn boxed(rng: &mut Rng) -> Boxed {
    let n = 1 + rng.below(4);
    let widest = [12, 7, 4, 3][n - 1];
    let costs: Vec<i32> = (0..n).map(|_| cost(rng)).collect();
    let mut spec = JobSpec::new(rng.pick(b"NSO"), &costs);
    let base = if rng.chance(1, 12) { rng.pick(&[-1_000_000, 1_000_000 - widest]) } else { rng.range(-5, 5) };
    let low: Vec<i64> = (0..n).map(|_| base + if base.abs() < 9 { rng.range(-2, 2) } else { 0 }).collect();
    let high: Vec<i64> = low.iter().map(|low| low + rng.range(0, widest)).collect();
    for i in 0..n {
        box_rows(rng, &mut spec, i, low[i], high[i]);
    }
    for _ in 0..rng.below(4) {
        extra_row(rng, &mut spec, &low, &high);
    }
    rng.shuffle(&mut spec.rows);
    theory_records(rng, &mut spec, 4, 12);
    Boxed { spec, low, high }
}

fn cost(rng: &mut Rng) -> i32 {
    match rng.below(16) {
        0 => rng.pick(&[-1_000_000, 1_000_000, 999_999, 10_001]),
        1 => 0,
        _ => rng.small(-5, 5),
    }
}

/// Spells the bounds of a variable in one of several ways.
fn box_rows(rng: &mut Rng, spec: &mut JobSpec, i: usize, low: i64, high: i64) {
    if low == high && rng.chance(1, 2) {
        spec.rows.push((b'E', spec.unit(i, rng.pick(&[1, -1])), 0));
        let last = spec.rows.len() - 1;
        spec.rows[last].2 = low * i64::from(spec.rows[last].1[i]);
        return;
    }
    let (scale, slack) = if rng.chance(1, 6) { (rng.range(2, 4), 1) } else { (1, 0) };
    let (up, down) = (spec.unit(i, scale as i32), spec.unit(i, -scale as i32));
    let (high, low) = (scale * high + slack, scale * low - slack);
    let row = if rng.chance(1, 2) { (b'L', up.clone(), high) } else { (b'G', down.clone(), -high) };
    spec.rows.push(row);
    let row = if rng.chance(1, 2) { (b'G', up, low) } else { (b'L', down, -low) };
    spec.rows.push(row);
}

/// A row through the neighbourhood of some point of the box.
fn extra_row(rng: &mut Rng, spec: &mut JobSpec, low: &[i64], high: &[i64]) {
    let coefs: Vec<i32> = (0..spec.n()).map(|_| rng.small(-3, 3)).collect();
    let point: Vec<i64> = low.iter().zip(high).map(|(&low, &high)| rng.range(low, high)).collect();
    let value: i64 = coefs.iter().zip(&point).map(|(&c, v)| i64::from(c) * v).sum();
    let letter = rng.pick(b"LLLGGGE");
    let off = if letter == b'E' && rng.chance(3, 4) { 0 } else { rng.range(-2, 2) };
    spec.rows.push((letter, coefs, value + off));
}

/// Calls or batches, as the theory has it; of `odd` places about one is not a variable's.
pub fn theory_records(rng: &mut Rng, spec: &mut JobSpec, most: usize, odd: usize) {
    let n = spec.n();
    let count = if rng.chance(1, 4) { rng.below(most + 1) } else { 2 + rng.below(most - 1) };
    let place = |rng: &mut Rng| if n == 0 || rng.chance(1, odd) { rng.below(16) } else { rng.below(n) } as u8;
    for _ in 0..count {
        match spec.theory {
            b'S' => {
                let second = if rng.chance(2, 3) { 16 } else { place(rng) };
                let fields = [rng.pick(&[0, 0, 0, 255]), place(rng), second, place(rng)];
                spec.calls.push(fields);
            }
            b'O' => {
                let length = if rng.chance(1, 10) { rng.pick(&[1, 5, 1_000_000]) } else { 1 + rng.below(3) as u32 };
                spec.batches.push((place(rng), length));
            }
            _ => {}
        }
    }
}

/// A job without a box, of up to 16 variables.
pub fn loose(rng: &mut Rng) -> JobSpec {
    let n = if rng.chance(1, 8) { rng.below(17) } else { rng.below(6) };
    let costs: Vec<i32> = (0..n).map(|_| cost(rng)).collect();
    let mut spec = JobSpec::new(rng.pick(b"NSO"), &costs);
    for _ in 0..rng.below(9) {
        let dense = rng.chance(1, 3);
        let coefs: Vec<i32> = (0..n).map(|_| if dense || rng.chance(1, 3) { number(rng) } else { 0 }).collect();
        let rhs = if rng.chance(1, 10) { rng.pick(&RIGHT_SIDES) } else { rng.range(-6, 9) };
        spec.rows.push((rng.pick(b"LGE"), coefs, rhs));
    }
    theory_records(rng, &mut spec, 6, 6);
    spec
}

pub const RIGHT_SIDES: [i64; 5] =
    [20_000_000_000_000, -20_000_000_000_000, 19_999_999_999_999, -19_999_999_999_999, 1_000_000];

fn number(rng: &mut Rng) -> i32 {
    match rng.below(12) {
        0 => rng.pick(&[1_000_000, -1_000_000, 999_999, -10_000]),
        1..=4 => rng.pick(&[1, -1]),
        _ => rng.small(-4, 4),
    }
}
