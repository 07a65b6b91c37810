//! Refusals: a cause, a spot and a line, and the place in the files.

use std::fmt;

#[derive(Clone, Copy, Debug, PartialEq, Eq)]
#[repr(u8)]
pub enum Cause {
    NothingOpen = 1,
    WrongLength = 2,
    OutOfRange = 3,
    Full = 4,
    NoSuchPlace = 5,
    NotDivisible = 6,
    RowTooLarge = 7,
    NoRule = 8,
    UnknownRelation = 9,
    PlaceNotVariable = 10,
    PremiseNotShown = 11,
    NoPlanTaken = 12,
    RowMissed = 13,
    NotAdmitted = 14,
    NotCheaper = 15,
    NotContradiction = 16,
    NotFixed = 17,
    PointStaysOpen = 18,
    FileEnds = 19,
    LetterOutOfPhase = 20,
    BadMap = 21,
    TrailingBytes = 22,
    BufferTooShort = 23,
    FileTooLong = 24,
}

#[derive(Clone, Copy, Debug, PartialEq, Eq)]
pub struct Fault {
    pub cause: Cause,
    pub spot: u16,
    pub line: u8,
}

impl Fault {
    pub fn at(cause: Cause, spot: usize) -> Fault {
        Fault { cause, spot: spot as u16, line: 0 }
    }

    pub fn in_line(self, line: usize) -> Fault {
        Fault { line: line as u8, ..self }
    }

    pub fn number(&self) -> u8 {
        self.cause as u8
    }
}

impl From<Cause> for Fault {
    fn from(cause: Cause) -> Fault {
        Fault::at(cause, 0)
    }
}

#[derive(Clone, Copy, Debug, PartialEq, Eq)]
pub enum File {
    Job = 1,
    Trace = 2,
}

#[derive(Clone, Copy, Debug, PartialEq, Eq)]
pub struct Refusal {
    pub fault: Fault,
    pub file: File,
    pub record: usize,
    pub byte: usize,
}

impl Refusal {
    pub fn new(fault: impl Into<Fault>, file: File, record: usize, byte: usize) -> Refusal {
        Refusal { fault: fault.into(), file, record, byte }
    }
}

impl fmt::Display for Refusal {
    fn fmt(&self, f: &mut fmt::Formatter) -> fmt::Result {
        let Fault { spot, line, .. } = self.fault;
        let (number, file) = (self.fault.number(), self.file as u8);
        write!(f, "refused {number} {file} {} {} {line} {spot}", self.record, self.byte)
    }
}
