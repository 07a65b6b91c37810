//! Trace records. Lists stay parts of the file.

use crate::bytes::{Bytes, Mapped};
use crate::fault::{Cause, Fault};
use crate::limits::{DIVISOR, MULTIPLIER, PREMISES};
use crate::row::{Plan, Row};

#[derive(Clone, Copy)]
pub struct CutBody<'a> {
    premises: &'a [u8],
    pub divisor: u32,
}

impl<'a> CutBody<'a> {
    fn read(bytes: &mut Bytes<'a>) -> Result<CutBody<'a>, Fault> {
        let count = usize::from(bytes.u8()?);
        let premises = bytes.take(4 * count)?;
        let divisor = bytes.u32()?;
        Ok(CutBody { premises, divisor })
    }

    pub fn count(&self) -> usize {
        self.premises.len() / 4
    }

    /// Place and multiplier of each premise.
    pub fn premises(&self) -> impl Iterator<Item = (u16, u16)> + 'a {
        let fields = self.premises.chunks_exact(4);
        fields.map(|f| (u16::from_le_bytes([f[0], f[1]]), u16::from_le_bytes([f[2], f[3]])))
    }

    /// Checks 2 and 3 of a cut.
    pub fn check_numbers(&self) -> Result<(), Fault> {
        let count = self.count();
        if !(1..=PREMISES).contains(&count) {
            return Err(Cause::WrongLength.into());
        }
        let good = |multiplier| (1..=MULTIPLIER).contains(&multiplier);
        if let Some(i) = self.premises().position(|(_, multiplier)| !good(multiplier)) {
            return Err(Fault::at(Cause::OutOfRange, i));
        }
        if !(1..=DIVISOR).contains(&self.divisor) {
            return Err(Fault::at(Cause::OutOfRange, count));
        }
        Ok(())
    }
}

#[derive(Clone, Copy)]
pub struct Lines<'a> {
    pub count: usize,
    bodies: &'a [u8],
}

impl<'a> Lines<'a> {
    fn read(bytes: &mut Bytes<'a>) -> Result<Lines<'a>, Fault> {
        let count = usize::from(bytes.u8()?);
        let start = bytes.at();
        for _ in 0..count {
            CutBody::read(bytes)?;
        }
        Ok(Lines { count, bodies: bytes.since(start) })
    }

    pub fn iter(&self) -> impl Iterator<Item = CutBody<'a>> {
        let mut bytes = Bytes::new(self.bodies);
        std::iter::from_fn(move || CutBody::read(&mut bytes).ok())
    }
}

#[derive(Clone, Copy)]
pub struct Places<'a>(&'a [u8]);

impl<'a> Places<'a> {
    pub fn len(&self) -> usize {
        self.0.len() / 2
    }

    pub fn is_empty(&self) -> bool {
        self.0.is_empty()
    }

    pub fn iter(&self) -> impl Iterator<Item = usize> + 'a {
        self.0.chunks_exact(2).map(|f| usize::from(u16::from_le_bytes([f[0], f[1]])))
    }

    /// The places two by two.
    pub fn pairs(&self) -> impl Iterator<Item = (usize, usize)> + 'a {
        let fields = self.0.chunks_exact(4);
        fields.map(|f| {
            let (up, down) = (u16::from_le_bytes([f[0], f[1]]), u16::from_le_bytes([f[2], f[3]]));
            (usize::from(up), usize::from(down))
        })
    }
}

pub enum Step<'a> {
    Branch(Row),
    Cut(CutBody<'a>),
    Chain(Lines<'a>),
    Infer { clue: &'a [u8], places: Places<'a> },
    Cutoff,
    Take(Plan),
    Drop(usize),
    Pin(Places<'a>),
}

impl<'a> Step<'a> {
    /// Reads one record, with n variables and clues of the given length. None is the end.
    pub fn read(bytes: &mut Bytes<'a>, n: usize, clue_bytes: usize) -> Result<Option<Step<'a>>, Fault> {
        let step = match bytes.u8()? {
            b'B' => {
                let mapped = bytes.mapped()?;
                let rhs = bytes.i64()?;
                Step::Branch(Row { coefs: mapped.unfold(n)?, rhs })
            }
            b'C' => Step::Cut(CutBody::read(bytes)?),
            b'L' => Step::Chain(Lines::read(bytes)?),
            b'I' => {
                let clue = bytes.take(clue_bytes)?;
                let count = usize::from(bytes.u8()?);
                Step::Infer { clue, places: Places(bytes.take(2 * count)?) }
            }
            b'K' => Step::Cutoff,
            b'T' => {
                let mapped: Mapped = bytes.mapped()?;
                Step::Take(Plan { values: mapped.unfold(n)? })
            }
            b'D' => Step::Drop(usize::from(bytes.u16()?)),
            b'P' => Step::Pin(Places(bytes.take(4 * n)?)),
            b'E' => return Ok(None),
            _ => return Err(Cause::LetterOutOfPhase.into()),
        };
        Ok(Some(step))
    }
}
