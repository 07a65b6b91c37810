//! Blind steps: records of all kinds, mostly valid. Each pair has a refusal that it waits for; other
//! refused records are mostly thrown away again.

use super::jobs::{boxed, loose, JobSpec, RIGHT_SIDES};
use super::rng::Rng;
use super::run::{Bounds, Run};
use super::solve::{Solver, Style};
use super::write::{self, Premise};
use crate::fault::Cause;
use crate::job::read_job;
use crate::pack::Pair;
use crate::theory::Theory;

const TARGETS: [u8; 27] =
    [1, 2, 3, 4, 5, 6, 7, 8, 10, 11, 12, 13, 14, 15, 16, 17, 18, 19, 20, 21, 22, 24, 0, 11, 18, 14, 7];

/// Blind steps on a good job.
pub fn blind(rng: &mut Rng, index: usize) -> Pair {
    let target = TARGETS[index % TARGETS.len()];
    let is_boxed = matches!(target, 1 | 14 | 15 | 17 | 18) || rng.chance(1, 2);
    let job = good_job(rng, is_boxed, matches!(target, 8 | 10 | 11 | 14)).bytes();
    let style = Style::random(rng);
    let walk = Walk { solver: Solver { rng, run: Run::open(job), style }, target, is_boxed };
    walk.go()
}

/// A job that is not refused, on request with two calls or batches at least.
fn good_job(rng: &mut Rng, is_boxed: bool, with_theory: bool) -> JobSpec {
    loop {
        let spec = if is_boxed { boxed(rng).spec } else { loose(rng) };
        let enough = !with_theory || spec.calls.len() + spec.batches.len() >= 2;
        if enough && read_job(&spec.bytes()).is_ok() {
            return spec;
        }
    }
}

struct Walk<'a> {
    solver: Solver<'a>,
    target: u8,
    is_boxed: bool,
}

impl Walk<'_> {
    fn rng(&mut self) -> &mut Rng {
        self.solver.rng
    }

    fn go(mut self) -> Pair {
        if self.is_boxed {
            let _ = self.solver.unscale();
        }
        if self.target == 18 {
            self.solver.style = Style::PLAIN;
        }
        // Of 7 moves, so many are blind ones; the others are the solver's.
        let blind = match self.target {
            1 => 0,
            15..=17 => 3,
            _ => 4 + self.rng().below(4),
        };
        for turn in 0..(40 + self.rng().below(200)) {
            let open = self.solver.run.proof.is_open();
            let blindly = if self.target == 18 { turn % 2 == 0 } else { self.rng().chance(blind, 7) };
            if open && self.is_boxed && !blindly {
                let _ = self.solver.node();
                continue;
            }
            if !open && self.target != 1 && self.rng().chance(1, 3) {
                break;
            }
            let record = self.record();
            match self.solver.run.step(&record) {
                Err(fault) if self.keeps(fault.cause) => return self.refused(&record),
                _ => {}
            }
        }
        self.finish()
    }

    fn keeps(&mut self, cause: Cause) -> bool {
        cause as u8 == self.target || self.rng().chance(1, 60)
    }

    /// The refused record stays; what follows it must not matter.
    fn refused(mut self, record: &[u8]) -> Pair {
        self.solver.run.force(record);
        for _ in 0..self.rng().below(3) {
            let more = self.record();
            self.solver.run.force(&more);
        }
        if self.rng().chance(1, 2) {
            self.solver.run.force(b"E");
        }
        self.solver.run.stop()
    }

    fn finish(self) -> Pair {
        let rng = &mut *self.solver.rng;
        let extra = match self.target {
            19 => return self.solver.run.stop(),
            22 => 1 + rng.below(40),
            24 => 65_537,
            _ => 0,
        };
        let filler = rng.draw() as u8;
        let mut pair = self.solver.run.end();
        pair.trace.extend(std::iter::repeat_n(filler, extra));
        pair
    }

    fn record(&mut self) -> Vec<u8> {
        let letter = match self.target {
            2 | 3 | 5..=7 => self.rng().pick(b"CLICLIBKTDP"),
            8 | 10 | 11 => self.rng().pick(b"IIIBC"),
            12 => self.rng().pick(b"KBC"),
            13..=15 => self.rng().pick(b"TTTB"),
            16 => self.rng().pick(b"DCBL"),
            17 => self.rng().pick(b"PPPBC"),
            18 => b'P',
            _ => self.rng().pick(b"BCLIKTDP"),
        };
        let record = self.of_letter(letter);
        match self.rng().below(60) {
            0 => vec![self.rng().draw() as u8],
            1 => record[..1 + self.rng().below(record.len())].to_vec(),
            _ => record,
        }
    }

    fn of_letter(&mut self, letter: u8) -> Vec<u8> {
        match letter {
            b'B' => self.branch(),
            b'C' => {
                let (premises, divisor) = self.body(self.solver.run.height());
                write::cut(&premises, divisor)
            }
            b'L' => self.chain(),
            b'I' => self.infer(),
            b'K' => write::cutoff(),
            b'T' => self.take(),
            b'D' => self.drop(),
            _ => self.pin(),
        }
    }

    fn place(&mut self, height: usize) -> u16 {
        if height == 0 || self.rng().chance(1, 40) {
            let next = height as u16;
            return self.rng().pick(&[next, next + 1, 511, 512, 65_535]);
        }
        self.rng().below(height) as u16
    }

    fn multiplier(&mut self) -> u16 {
        match self.rng().below(60) {
            0 => self.rng().pick(&[0, 10_001, 65_535]),
            1..=4 => self.rng().pick(&[10_000, 9_999, 500]),
            5..=20 => 1 + self.rng().below(4) as u16,
            _ => 1,
        }
    }

    fn divisor(&mut self) -> u32 {
        match self.rng().below(60) {
            0 => self.rng().pick(&[0, 1_000_001, u32::MAX]),
            1 | 2 => self.rng().pick(&[1_000_000, 999_999, 10]),
            3..=16 => 1 + self.rng().below(4) as u32,
            _ => 1,
        }
    }

    /// Premises and divisor of a cut or a line; at times one row divided by what its coefficients share.
    fn body(&mut self, height: usize) -> (Vec<Premise>, u32) {
        let known = self.solver.run.height();
        if known > 0 && self.rng().chance(1, 4) {
            let place = self.rng().below(known);
            let shared = self.solver.run.proof.rows()[place].coefs.iter().fold(0, |g, c| gcd(g, c.unsigned_abs()));
            return (vec![(place as u16, 1)], shared.max(1));
        }
        let count = match self.rng().below(40) {
            0 => self.rng().pick(&[0, 33, 34, 255]),
            1 => self.rng().pick(&[31, 32]),
            _ => 1 + self.rng().below(4),
        };
        let premises = (0..count).map(|_| (self.place(height), self.multiplier())).collect();
        (premises, self.divisor())
    }

    fn chain(&mut self) -> Vec<u8> {
        let count = match self.rng().below(30) {
            0 => self.rng().pick(&[0, 9, 10, 40]),
            1 => 8,
            _ => 1 + self.rng().below(4),
        };
        let height = self.solver.run.height();
        let lines: Vec<_> = (0..count).map(|k| self.body(height + k)).collect();
        write::chain(&lines)
    }

    fn number(&mut self) -> i32 {
        match self.rng().below(60) {
            0 => self.rng().pick(&[1_000_001, -1_000_001, i32::MAX, i32::MIN]),
            1..=3 => self.rng().pick(&[1_000_000, -1_000_000]),
            4..=20 => self.rng().small(-9, 9),
            _ => self.rng().pick(&[1, -1]),
        }
    }

    /// A list of bits and numbers, at times with a zero or with a bit of n or more.
    fn spoil(&mut self, list: &mut Vec<(usize, i32)>) {
        let n = self.solver.run.proof.n();
        if self.rng().chance(1, 40) {
            let bit = self.rng().below(16);
            let value = if bit < n || self.rng().chance(1, 3) { 0 } else { 1 };
            list.retain(|(i, _)| *i != bit);
            list.push((bit, value));
            list.sort();
        }
    }

    fn branch(&mut self) -> Vec<u8> {
        let n = self.solver.run.proof.n();
        let dense = self.rng().chance(1, 4);
        let mut list = Vec::new();
        for i in 0..n {
            if dense || self.rng().chance(1, n) {
                list.push((i, self.number()));
            }
        }
        if let Some(coefs) = self.difference().filter(|_| self.solver.rng.chance(1, 3)) {
            list = write::sparse(&coefs);
        }
        list.retain(|(_, value)| *value != 0);
        self.spoil(&mut list);
        let rhs = match self.rng().below(20) {
            0 => self.rng().pick(&RIGHT_SIDES),
            1 if self.target == 3 => self.rng().pick(&[i64::MIN, i64::MAX, -20_000_000_000_001]),
            _ => self.rng().range(-6, 8),
        };
        write::branch_raw(&list, rhs)
    }

    /// The coefficients of a premise of some rule.
    fn difference(&mut self) -> Option<[i32; 16]> {
        let clue = [self.rng().below(4) as u8, self.rng().below(4) as u8];
        let rule = self.solver.run.proof.theory().rule(&clue)?;
        let premise = self.solver.rng.pick(rule.premises());
        Some(premise.row(self.solver.run.proof.n()).coefs)
    }

    fn take(&mut self) -> Vec<u8> {
        let bounds = Bounds::of(&self.solver.run.proof);
        let n = self.solver.run.proof.n();
        let wild = self.rng().chance(1, 4);
        let mut values = Vec::new();
        for i in 0..n {
            let value = match bounds.of_variable(i) {
                Some((low, high)) if !wild && low.0 <= high.0 => self.rng().range(low.0, high.0) as i32,
                _ if wild => self.number(),
                _ => self.rng().small(-3, 6),
            };
            values.push(value);
        }
        let mut list = write::sparse(&values);
        self.spoil(&mut list);
        write::take_raw(&list)
    }

    fn drop(&mut self) -> Vec<u8> {
        let height = self.solver.run.height();
        match self.solver.run.contradiction() {
            Some(place) if self.target != 16 => write::drop(place),
            _ => write::drop(self.place(height)),
        }
    }

    fn pin(&mut self) -> Vec<u8> {
        let n = self.solver.run.proof.n();
        let height = self.solver.run.height();
        let bounds = Bounds::of(&self.solver.run.proof);
        let mut places = match bounds.pin_places() {
            Some(places) if self.rng().chance(9, 10) => places,
            _ => (0..2 * n).map(|_| self.place(height)).collect(),
        };
        if n > 0 && self.rng().chance(1, 12) {
            let i = self.rng().below(2 * n);
            places[i] = self.place(height);
        }
        write::pin(&places)
    }

    fn infer(&mut self) -> Vec<u8> {
        let count = match self.solver.run.proof.theory() {
            Theory::Bare => return write::infer(&[], &[0, 1, 2][..self.solver.rng.below(3)]),
            Theory::Shared(calls) => calls.len(),
            Theory::Vat(batches) => batches.len(),
        };
        let most = if count == 0 || self.rng().chance(1, 12) { 256 } else { count };
        let clue = [self.rng().below(most) as u8, self.rng().below(most) as u8];
        let mut places = self.premise_places(&clue);
        match self.rng().below(30) {
            0 => places.push(0),
            1 => places.truncate(places.len() / 2),
            2 => places.resize(self.rng().pick(&[0, 5, 255]), 3),
            _ => {}
        }
        write::infer(&clue, &places)
    }

    /// Rows with the coefficients of the premises, where there are such.
    fn premise_places(&mut self, clue: &[u8]) -> Vec<u16> {
        let n = self.solver.run.proof.n();
        let height = self.solver.run.height();
        let Some(rule) = self.solver.run.proof.theory().rule(clue) else { return vec![0] };
        let mut places = Vec::new();
        for premise in rule.premises() {
            let coefs = premise.row(n).coefs;
            let rows = self.solver.run.proof.rows();
            let alike: Vec<usize> = (0..height).filter(|&p| rows[p].coefs == coefs).collect();
            let place = if alike.is_empty() { self.place(height) } else { self.rng().pick(&alike) as u16 };
            places.push(place);
        }
        places
    }
}

fn gcd(a: u32, b: u32) -> u32 {
    if b == 0 {
        a
    } else {
        gcd(b, a % b)
    }
}

/// A job whose records are picked blindly.
pub fn blind_job(rng: &mut Rng, index: usize) -> Pair {
    let spec = if rng.chance(1, 2) { boxed(rng).spec } else { loose(rng) };
    let mut records = spec.records();
    let at = rng.below(records.len() + 1);
    let odd = odd_record(rng, index, &spec.costs);
    if odd.1 {
        let phase_start = records.iter().position(|r| r[0] == odd.0[0]);
        records.insert(phase_start.unwrap_or(at), odd.0);
    } else {
        records.insert(at, odd.0);
    }
    let mut job = [vec![spec.theory], records.concat()].concat();
    match index % 11 {
        0 => {}
        1 => job.extend(b"EE"),
        2 => job.resize(65_537, b'E'),
        3 | 4 => job.truncate(1 + rng.below(job.len())),
        _ => job.push(b'E'),
    }
    Pair { job, trace: b"E".to_vec() }
}

/// A record to put in, and whether it belongs before the first of its letter.
fn odd_record(rng: &mut Rng, index: usize, costs: &[i32]) -> (Vec<u8>, bool) {
    let n = costs.len();
    let far = rng.pick(&[1_000_001, -1_000_001, i32::MIN, i32::MAX]);
    let far_right = rng.pick(&[20_000_000_000_001, -20_000_000_000_001, i64::MIN, i64::MAX]);
    match index % 10 {
        0 => (write::variable(far), true),
        1 => (write::row(rng.pick(b"LGEQ"), &vec![1; n], far_right), true),
        2 => (write::row(rng.pick(b"LGEQ"), &vec![far; n], 0), true),
        3 => (write::row(rng.pick(b"QlV\0"), &vec![1; n], 5), true),
        4 => (write::row_raw(b'L', &[(rng.below(16), 0)], 5), true),
        5 => (write::row_raw(b'Q', &[(n.min(15), 1), (15, 0)][..1 + usize::from(n < 15)], 5), true),
        6 => (write::call([1, rng.pick(&[0, 16]), rng.pick(&[16, 17]), rng.pick(&[15, 16])]), true),
        7 => (write::batch(rng.pick(&[0, 15, 16]), rng.pick(&[0, 1, 1_000_000, 1_000_001])), true),
        8 => (vec![rng.draw() as u8], false),
        _ => (rng.pick(&[b"N", b"V", b"R", b"F", b"W"]).to_vec(), false),
    }
}
