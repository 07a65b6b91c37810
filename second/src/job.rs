//! Jobs, and reading a job file.

use crate::bytes::Bytes;
use crate::fault::{Cause, Fault, File, Refusal};
use crate::limits::{coefficient_ok, right_side_ok, FILE_BYTES, JOB_ROWS, VARIABLES};
use crate::row::{Row, Table};
use crate::theory::{add_batch, add_call, Batch, Call, Theory};

/// The rows lie in the table that the proof will go on with.
pub struct Job {
    pub n: usize,
    pub costs: [i32; VARIABLES],
    pub table: Table,
    pub theory: Theory,
}

impl Job {
    fn new(theory: Theory) -> Job {
        Job { n: 0, costs: [0; VARIABLES], table: Table::default(), theory }
    }

    fn variable(&mut self, cost: i32) -> Result<(), Fault> {
        if !coefficient_ok(cost) {
            return Err(Cause::OutOfRange.into());
        }
        if self.n == VARIABLES {
            return Err(Cause::Full.into());
        }
        self.costs[self.n] = cost;
        self.n += 1;
        Ok(())
    }

    fn row(&mut self, letter: u8, row: &Row) -> Result<(), Fault> {
        if let Some(i) = row.wide_coefficient() {
            return Err(Fault::at(Cause::OutOfRange, i));
        }
        if !right_side_ok(row.rhs) {
            return Err(Fault::at(Cause::OutOfRange, self.n));
        }
        let (at_most, at_least) = match letter {
            b'L' => (true, false),
            b'G' => (false, true),
            b'E' => (true, true),
            _ => return Err(Cause::UnknownRelation.into()),
        };
        if self.table.len() + usize::from(at_most) + usize::from(at_least) > JOB_ROWS {
            return Err(Cause::Full.into());
        }
        if at_most {
            self.table.push(*row);
        }
        if at_least {
            self.table.push(row.turned());
        }
        Ok(())
    }
}

#[derive(Clone, Copy, PartialEq, Eq)]
enum Phase {
    Variables,
    Rows,
    Theory,
}

struct Reader<'a> {
    bytes: Bytes<'a>,
    phase: Phase,
    job: Job,
}

/// Record 0: the theory letter.
fn theory(bytes: &mut Bytes) -> Result<Theory, Fault> {
    match bytes.u8()? {
        b'N' => Ok(Theory::Bare),
        b'S' => Ok(Theory::Shared(Vec::new())),
        b'O' => Ok(Theory::Vat(Vec::new())),
        _ => Err(Cause::LetterOutOfPhase.into()),
    }
}

impl Reader<'_> {
    /// Reads one record after the first; whether it was the end.
    fn record(&mut self) -> Result<bool, Fault> {
        let letter = self.bytes.u8()?;
        match (letter, self.phase) {
            (b'V', Phase::Variables) => {
                let cost = self.bytes.i32()?;
                self.job.variable(cost)?;
            }
            (b'R', Phase::Variables | Phase::Rows) => {
                self.phase = Phase::Rows;
                self.row()?;
            }
            (b'F' | b'W', _) => {
                self.phase = Phase::Theory;
                self.of_theory(letter)?;
            }
            (b'E', _) => return Ok(true),
            _ => return Err(Cause::LetterOutOfPhase.into()),
        }
        Ok(false)
    }

    fn row(&mut self) -> Result<(), Fault> {
        let letter = self.bytes.u8()?;
        let mapped = self.bytes.mapped()?;
        let rhs = self.bytes.i64()?;
        let coefs = mapped.unfold(self.job.n)?;
        self.job.row(letter, &Row { coefs, rhs })
    }

    fn of_theory(&mut self, letter: u8) -> Result<(), Fault> {
        match (letter, &mut self.job.theory) {
            (b'F', Theory::Shared(calls)) => {
                let fields = self.bytes.take(4)?;
                let [function, first, second, result] = [fields[0], fields[1], fields[2], fields[3]];
                add_call(calls, Call { function, first, second, result })
            }
            (b'W', Theory::Vat(batches)) => {
                let start = self.bytes.u8()?;
                let length = self.bytes.u32()?;
                add_batch(batches, Batch { start, length })
            }
            _ => Err(Cause::LetterOutOfPhase.into()),
        }
    }
}

pub fn read_job(file: &[u8]) -> Result<Job, Refusal> {
    let refusal = |fault: Fault, record, byte| Refusal::new(fault, File::Job, record, byte);
    if file.len() > FILE_BYTES {
        return Err(refusal(Cause::FileTooLong.into(), 0, 0));
    }
    let mut bytes = Bytes::new(file);
    let job = Job::new(theory(&mut bytes).map_err(|fault| refusal(fault, 0, 0))?);
    let mut reader = Reader { bytes, phase: Phase::Variables, job };
    let mut record = 1;
    loop {
        let byte = reader.bytes.at();
        let ended = reader.record().map_err(|fault| refusal(fault, record, byte))?;
        record += 1;
        if ended {
            break;
        }
    }
    if !reader.bytes.is_empty() {
        return Err(refusal(Cause::TrailingBytes.into(), record, reader.bytes.at()));
    }
    Ok(reader.job)
}
