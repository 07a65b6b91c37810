//! The check of the two files, and what is printed of it.

use std::fmt;

use crate::bytes::Bytes;
use crate::fault::{Cause, Fault, File, Refusal};
use crate::job::read_job;
use crate::limits::FILE_BYTES;
use crate::proof::{Proof, Taken};
use crate::step::Step;

#[derive(Clone, Debug, PartialEq, Eq)]
pub enum Verdict {
    Least(Taken),
    None,
    Unfinished(Option<Taken>),
}

#[derive(Clone, Debug, PartialEq, Eq)]
pub enum Outcome {
    Closed { verdict: Verdict, n: usize },
    Refused(Refusal),
}

impl Outcome {
    /// The first line, and the plan's line if there is one.
    pub fn lines(&self) -> (String, Option<String>) {
        let (verdict, n) = match self {
            Outcome::Refused(refusal) => return (refusal.to_string(), None),
            Outcome::Closed { verdict, n } => (verdict, *n),
        };
        match verdict {
            Verdict::Least(taken) => (format!("least {}", taken.cost), Some(plan_line(taken, n))),
            Verdict::None => ("none".into(), None),
            Verdict::Unfinished(taken) => ("unfinished".into(), taken.as_ref().map(|taken| plan_line(taken, n))),
        }
    }
}

impl fmt::Display for Outcome {
    /// One line for a whole outcome.
    fn fmt(&self, f: &mut fmt::Formatter) -> fmt::Result {
        match self.lines() {
            (first, Some(second)) => write!(f, "{first} | {second}"),
            (first, None) => f.write_str(&first),
        }
    }
}

fn plan_line(taken: &Taken, n: usize) -> String {
    let mut line = String::from("plan");
    for value in &taken.plan.values[..n] {
        line.push(' ');
        line.push_str(&value.to_string());
    }
    line
}

pub fn check(job: &[u8], trace: &[u8]) -> Outcome {
    let proof = match read_job(job) {
        Ok(job) => Proof::open(job),
        Err(refusal) => return Outcome::Refused(refusal),
    };
    let n = proof.n();
    match follow(proof, trace) {
        Ok(verdict) => Outcome::Closed { verdict, n },
        Err(refusal) => Outcome::Refused(refusal),
    }
}

fn follow(mut proof: Proof, trace: &[u8]) -> Result<Verdict, Refusal> {
    let refusal = |fault: Fault, record, byte| Refusal::new(fault, File::Trace, record, byte);
    if trace.len() > FILE_BYTES {
        return Err(refusal(Cause::FileTooLong.into(), 0, 0));
    }
    let mut bytes = Bytes::new(trace);
    let mut record = 0;
    loop {
        let byte = bytes.at();
        let more = one_record(&mut proof, &mut bytes).map_err(|fault| refusal(fault, record, byte))?;
        record += 1;
        if !more {
            break;
        }
    }
    if !bytes.is_empty() {
        return Err(refusal(Cause::TrailingBytes.into(), record, bytes.at()));
    }
    Ok(close(&proof))
}

/// Reads and does one step; false at the end.
pub fn one_record(proof: &mut Proof, bytes: &mut Bytes) -> Result<bool, Fault> {
    match Step::read(bytes, proof.n(), proof.theory().clue_bytes())? {
        Some(step) => proof.apply(&step).map(|()| true),
        None => Ok(false),
    }
}

fn close(proof: &Proof) -> Verdict {
    match (proof.is_open(), proof.taken().copied()) {
        (false, Some(taken)) => Verdict::Least(taken),
        (false, None) => Verdict::None,
        (true, taken) => Verdict::Unfinished(taken),
    }
}
