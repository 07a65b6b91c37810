//! A little search by bisection that writes down its trace.

use super::rng::Rng;
use super::run::{Bounds, Run};
use super::write::{self, Line, Premise};
use crate::fault::Fault;
use crate::row::{Plan, Row};
use crate::theory::{Difference, Theory};

/// Chances out of 8.
#[derive(Clone, Copy)]
pub struct Style {
    pub guesses: usize,
    pub cutoffs: usize,
    pub rows: usize,
    pub theory: usize,
    pub chains: usize,
    pub lopsided: usize,
}

impl Style {
    pub const PLAIN: Style = Style { guesses: 0, cutoffs: 0, rows: 0, theory: 0, chains: 0, lopsided: 0 };

    pub fn random(rng: &mut Rng) -> Style {
        let mut chance = || rng.below(7);
        Style {
            guesses: chance() / 2,
            cutoffs: chance() / 2,
            rows: chance(),
            theory: chance(),
            chains: chance(),
            lopsided: chance(),
        }
    }
}

pub struct Solver<'a> {
    pub rng: &'a mut Rng,
    pub run: Run,
    pub style: Style,
}

type Did = Result<bool, Fault>;

impl Solver<'_> {
    fn by(&mut self, eighths: usize) -> bool {
        self.rng.chance(eighths, 8)
    }

    /// Turns rows like 3v <= 7 into bounds.
    pub fn unscale(&mut self) -> Result<(), Fault> {
        let rows: Vec<Row> = self.run.proof.rows().to_vec();
        for (place, row) in rows.iter().enumerate() {
            let list = write::sparse(&row.coefs);
            if let [(_, c)] = list[..] {
                if c.abs() > 1 {
                    self.combine(&[(place as u16, 1)], c.unsigned_abs())?;
                }
            }
        }
        Ok(())
    }

    /// Goes on until nothing is open; false if the trace grows too long.
    pub fn finish(&mut self) -> Did {
        while self.run.proof.is_open() {
            if self.run.trace.len() > 65_000 {
                return Ok(false);
            }
            self.node()?;
        }
        Ok(true)
    }

    /// One move in the current subproblem.
    pub fn node(&mut self) -> Result<(), Fault> {
        if let Some(place) = self.run.contradiction() {
            return self.run.step(&write::drop(place));
        }
        let bounds = Bounds::of(&self.run.proof);
        if let Some(i) = bounds.crossed() {
            return self.cross(&bounds, i);
        }
        let wide = bounds.wide();
        if wide.is_empty() {
            return self.point(&bounds);
        }
        let helped = self.room()
            && (self.guess(&bounds)? || self.cutoff()? || self.by_row(&bounds)? || self.by_theory(&bounds)?);
        if helped {
            return Ok(());
        }
        self.halve(&bounds, &wide)
    }

    fn room(&self) -> bool {
        self.run.height() < 440
    }

    /// Two bounds that contradict each other, summed.
    fn cross(&mut self, bounds: &Bounds, i: usize) -> Result<(), Fault> {
        let Some((low, high)) = bounds.of_variable(i) else { return Ok(()) };
        self.combine(&[(high.1, 1), (low.1, 1)], 1)
    }

    /// A fixed point: taken if it is a cheaper model, and shut.
    fn point(&mut self, bounds: &Bounds) -> Result<(), Fault> {
        let (Some(values), Some(places)) = (bounds.lows(), bounds.pin_places()) else {
            return Ok(());
        };
        if self.run.proof.judge(&plan(&values)).is_ok() {
            self.run.step(&write::take(&values))?;
        }
        self.run.step(&write::pin(&places))
    }

    /// Takes a model in the box that is cheaper, if one is met by chance.
    fn guess(&mut self, bounds: &Bounds) -> Did {
        if !self.by(self.style.guesses) {
            return Ok(false);
        }
        for _ in 0..6 {
            let n = self.run.proof.n();
            let pairs: Option<Vec<_>> = (0..n).map(|i| bounds.of_variable(i)).collect();
            let Some(pairs) = pairs else { return Ok(false) };
            let values: Vec<i32> = pairs.iter().map(|(low, high)| self.rng.range(low.0, high.0) as i32).collect();
            if self.run.step(&write::take(&values)).is_ok() {
                return Ok(true);
            }
        }
        Ok(false)
    }

    fn cutoff(&mut self) -> Did {
        if self.run.proof.taken().is_none() || !self.by(self.style.cutoffs) {
            return Ok(false);
        }
        self.run.step(&write::cutoff())?;
        Ok(true)
    }

    /// The premises that leave only variable `keep` of a row, or none, and what is left on the right.
    fn rest(&self, bounds: &Bounds, place: usize, keep: Option<usize>) -> Option<(Vec<Premise>, i64)> {
        let row = &self.run.proof.rows()[place];
        let mut premises = vec![(place as u16, 1)];
        let mut rhs = row.rhs;
        for (i, c) in write::sparse(&row.coefs).into_iter().filter(|(i, _)| Some(*i) != keep) {
            let (low, high) = bounds.of_variable(i)?;
            let (value, place) = if c > 0 { low } else { high };
            rhs -= i64::from(c) * value;
            premises.push((place, u16::try_from(c.unsigned_abs()).ok().filter(|&m| m <= 10_000)?));
        }
        Some((premises, rhs))
    }

    /// Refutes the box by a row, or tightens a bound by one.
    fn by_row(&mut self, bounds: &Bounds) -> Did {
        if !self.by(self.style.rows) {
            return Ok(false);
        }
        let count = self.run.height();
        let first = self.rng.below(count.max(1));
        for place in (0..count).map(|k| (first + k) % count) {
            if let Some((premises, _)) = self.rest(bounds, place, None).filter(|(_, rhs)| *rhs < 0) {
                self.combine(&premises, 1)?;
                return Ok(true);
            }
            if let Some((premises, divisor)) = self.tighter(bounds, place) {
                self.combine(&premises, divisor)?;
                return Ok(true);
            }
        }
        Ok(false)
    }

    fn tighter(&self, bounds: &Bounds, place: usize) -> Option<(Vec<Premise>, u32)> {
        let coefs = write::sparse(&self.run.proof.rows()[place].coefs);
        coefs.into_iter().find_map(|(i, c)| {
            let (premises, rhs) = self.rest(bounds, place, Some(i))?;
            let (low, high) = bounds.of_variable(i)?;
            let bound = rhs.div_euclid(i64::from(c.abs()));
            let helps = if c > 0 { bound < high.0 } else { -bound > low.0 };
            helps.then_some((premises, c.unsigned_abs()))
        })
    }

    /// A cut, or a chain that comes to the same row.
    pub fn combine(&mut self, premises: &[Premise], divisor: u32) -> Result<(), Fault> {
        if self.run.height() < 500 && self.by(self.style.chains) {
            let lines = self.split(premises, divisor);
            if self.run.step(&write::chain(&lines)).is_ok() {
                return Ok(());
            }
        }
        self.run.step(&write::cut(premises, divisor))
    }

    /// Lines that add the premises up part by part.
    fn split(&mut self, premises: &[Premise], divisor: u32) -> Vec<Line> {
        let size = 1 + self.rng.below(premises.len());
        let mut lines: Vec<Line> = Vec::new();
        for part in premises.chunks(size).take(7) {
            let made = self.run.height() + lines.len();
            let so_far = (!lines.is_empty()).then_some((made as u16 - 1, 1));
            lines.push((so_far.into_iter().chain(part.iter().copied()).collect(), 1));
        }
        if self.by(2) {
            lines.push((vec![((self.run.height() + lines.len()) as u16 - 1, 1)], 1));
        }
        if let Some(last) = lines.last_mut() {
            last.1 = divisor;
        }
        lines
    }

    fn by_theory(&mut self, bounds: &Bounds) -> Did {
        let count = match self.run.proof.theory() {
            Theory::Bare => 0,
            Theory::Shared(calls) => calls.len(),
            Theory::Vat(batches) => batches.len(),
        };
        if count < 2 || !self.by(self.style.theory) {
            return Ok(false);
        }
        let first = self.rng.below(count * count);
        for k in (0..count * count).map(|k| (first + k) % (count * count)) {
            if self.clue(bounds, [(k / count) as u8, (k % count) as u8])? {
                return Ok(true);
            }
        }
        Ok(false)
    }

    /// Uses the rule of a clue where it applies and says something new.
    fn clue(&mut self, bounds: &Bounds, clue: [u8; 2]) -> Did {
        let n = self.run.proof.n();
        let Some(rule) = self.run.proof.theory().rule(&clue) else { return Ok(false) };
        let mut all = rule.premises().iter().chain([&rule.conclusion]);
        if all.any(|d| d.leaves(n)) || self.standing(&rule.conclusion.row(n)).is_some() {
            return Ok(false);
        }
        if !rule.conclusion.row(n).has_coefficients() && rule.conclusion.k >= 0 {
            return Ok(false);
        }
        if !rule.premises().iter().all(|premise| self.holds(bounds, premise)) {
            return Ok(false);
        }
        let mut places = Vec::new();
        for premise in rule.premises() {
            places.push(self.show(bounds, premise)?);
        }
        self.run.step(&write::infer(&clue, &places))?;
        Ok(true)
    }

    /// The place of a row that stands for the given one.
    fn standing(&self, wanted: &Row) -> Option<u16> {
        let stands = |row: &Row| row.coefs == wanted.coefs && row.rhs <= wanted.rhs;
        self.run.proof.rows().iter().position(stands).map(|place| place as u16)
    }

    fn holds(&self, bounds: &Bounds, premise: &Difference) -> bool {
        let row = premise.row(self.run.proof.n());
        if !row.has_coefficients() {
            return row.rhs >= 0;
        }
        self.standing(&row).is_some() || self.sides(bounds, premise).is_some()
    }

    /// The bounds that sum to a difference at least as tight.
    fn sides(&self, bounds: &Bounds, premise: &Difference) -> Option<Vec<Premise>> {
        let n = self.run.proof.n();
        let mut premises = Vec::new();
        let mut most = 0;
        if usize::from(premise.a) < n {
            let (value, place) = bounds.high[usize::from(premise.a)]?;
            most += value;
            premises.push((place, 1));
        }
        if usize::from(premise.b) < n {
            let (value, place) = bounds.low[usize::from(premise.b)]?;
            most -= value;
            premises.push((place, 1));
        }
        (most <= premise.k).then_some(premises)
    }

    /// A place for the premise; a row may join for it.
    fn show(&mut self, bounds: &Bounds, premise: &Difference) -> Result<u16, Fault> {
        let row = premise.row(self.run.proof.n());
        if !row.has_coefficients() {
            return Ok(self.rng.pick(&[0, 7, 511, 512, 65_535]));
        }
        if let Some(place) = self.standing(&row) {
            return Ok(place);
        }
        let place = self.run.height() as u16;
        let sides = self.sides(bounds, premise).unwrap_or_default();
        self.combine(&sides, 1)?;
        Ok(place)
    }

    /// Branches on a half of some variable, either half first.
    fn halve(&mut self, bounds: &Bounds, wide: &[usize]) -> Result<(), Fault> {
        let i = self.rng.pick(wide);
        let Some(((low, _), (high, _))) = bounds.of_variable(i) else { return Ok(()) };
        let lopsided = self.by(self.style.lopsided);
        let middle = if lopsided { self.rng.range(low, high - 1) } else { (low + high).div_euclid(2) };
        let mut coefs = vec![0; self.run.proof.n()];
        let upper_first = self.rng.chance(1, 3);
        coefs[i] = if upper_first { -1 } else { 1 };
        let rhs = if upper_first { -middle - 1 } else { middle };
        self.run.step(&write::branch(&coefs, rhs))
    }
}

pub fn plan(values: &[i32]) -> Plan {
    let mut plan = Plan { values: [0; 16] };
    plan.values[..values.len()].copy_from_slice(values);
    plan
}
