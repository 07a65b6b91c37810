//! A trace that is followed while it is written, so that places are known.

use crate::bytes::Bytes;
use crate::check::one_record;
use crate::fault::Fault;
use crate::job::read_job;
use crate::pack::Pair;
use crate::proof::Proof;
use crate::row::Row;

pub struct Run {
    pub job: Vec<u8>,
    pub proof: Proof,
    pub trace: Vec<u8>,
    /// Where each record begins.
    pub starts: Vec<usize>,
}

impl Run {
    /// The job must be one that is not refused.
    pub fn open(job: Vec<u8>) -> Run {
        let read = read_job(&job).unwrap_or_else(|refusal| panic!("a job meant to be good: {refusal}"));
        Run { proof: Proof::open(read), job, trace: Vec::new(), starts: Vec::new() }
    }

    /// Writes the record down if it is accepted.
    pub fn step(&mut self, record: &[u8]) -> Result<(), Fault> {
        one_record(&mut self.proof, &mut Bytes::new(record))?;
        self.force(record);
        Ok(())
    }

    /// Writes the record down without following it.
    pub fn force(&mut self, record: &[u8]) {
        self.starts.push(self.trace.len());
        self.trace.extend_from_slice(record);
    }

    pub fn end(mut self) -> Pair {
        self.force(b"E");
        self.stop()
    }

    pub fn stop(self) -> Pair {
        Pair { job: self.job, trace: self.trace }
    }

    pub fn height(&self) -> usize {
        self.proof.rows().len()
    }

    /// The place of some row that is good for a drop.
    pub fn contradiction(&self) -> Option<u16> {
        let bad = |row: &Row| row.rhs < 0 && !row.has_coefficients();
        self.proof.rows().iter().rposition(bad).map(|place| place as u16)
    }
}

/// The tightest rows of +1 and of -1 at each variable alone: value and place.
pub struct Bounds {
    pub low: Vec<Option<(i64, u16)>>,
    pub high: Vec<Option<(i64, u16)>>,
}

/// The variable and sign of a row with one coefficient, which is 1 or -1.
fn unit(row: &Row) -> Option<(usize, i32)> {
    let i = row.coefs.iter().position(|&c| c != 0)?;
    let sign = row.coefs[i];
    ((sign == 1 || sign == -1) && row.is_alone(i, sign)).then_some((i, sign))
}

impl Bounds {
    pub fn of(proof: &Proof) -> Bounds {
        let mut bounds = Bounds { low: vec![None; proof.n()], high: vec![None; proof.n()] };
        for (place, row) in proof.rows().iter().enumerate() {
            match unit(row) {
                Some((i, 1)) if bounds.high[i].is_none_or(|(r, _)| row.rhs < r) => {
                    bounds.high[i] = Some((row.rhs, place as u16));
                }
                Some((i, -1)) if bounds.low[i].is_none_or(|(r, _)| -row.rhs > r) => {
                    bounds.low[i] = Some((-row.rhs, place as u16));
                }
                _ => {}
            }
        }
        bounds
    }

    /// Values and places of low and high, where both are known.
    pub fn of_variable(&self, i: usize) -> Option<((i64, u16), (i64, u16))> {
        Some((self.low[i]?, self.high[i]?))
    }

    pub fn crossed(&self) -> Option<usize> {
        (0..self.low.len()).find(|&i| self.of_variable(i).is_some_and(|(low, high)| low.0 > high.0))
    }

    pub fn wide(&self) -> Vec<usize> {
        let is_wide = |i: &usize| self.of_variable(*i).is_some_and(|(low, high)| low.0 < high.0);
        (0..self.low.len()).filter(is_wide).collect()
    }

    pub fn pin_places(&self) -> Option<Vec<u16>> {
        let both = |i| self.of_variable(i).map(|(low, high)| [high.1, low.1]);
        Some((0..self.low.len()).map(both).collect::<Option<Vec<_>>>()?.concat())
    }

    pub fn lows(&self) -> Option<Vec<i32>> {
        self.low.iter().map(|low| low.map(|(value, _)| value as i32)).collect()
    }
}
