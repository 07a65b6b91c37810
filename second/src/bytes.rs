//! Reading a file from the front. Running out of bytes is refusal 19.

use crate::fault::{Cause, Fault};
use crate::limits::VARIABLES;

pub struct Bytes<'a> {
    data: &'a [u8],
    at: usize,
}

impl<'a> Bytes<'a> {
    pub fn new(data: &'a [u8]) -> Bytes<'a> {
        Bytes { data, at: 0 }
    }

    pub fn at(&self) -> usize {
        self.at
    }

    pub fn is_empty(&self) -> bool {
        self.at == self.data.len()
    }

    pub fn take(&mut self, len: usize) -> Result<&'a [u8], Fault> {
        let part = self.data[self.at..].get(..len).ok_or(Cause::FileEnds)?;
        self.at += len;
        Ok(part)
    }

    /// The bytes from an earlier position up to here.
    pub fn since(&self, start: usize) -> &'a [u8] {
        &self.data[start..self.at]
    }

    fn array<const N: usize>(&mut self) -> Result<[u8; N], Fault> {
        let part = self.data[self.at..].first_chunk().ok_or(Cause::FileEnds)?;
        self.at += N;
        Ok(*part)
    }

    pub fn u8(&mut self) -> Result<u8, Fault> {
        self.array().map(|[b]| b)
    }

    pub fn u16(&mut self) -> Result<u16, Fault> {
        self.array().map(u16::from_le_bytes)
    }

    pub fn u32(&mut self) -> Result<u32, Fault> {
        self.array().map(u32::from_le_bytes)
    }

    pub fn i32(&mut self) -> Result<i32, Fault> {
        self.array().map(i32::from_le_bytes)
    }

    pub fn i64(&mut self) -> Result<i64, Fault> {
        self.array().map(i64::from_le_bytes)
    }

    pub fn mapped(&mut self) -> Result<Mapped<'a>, Fault> {
        let map = self.u16()?;
        let numbers = self.take(4 * map.count_ones() as usize)?;
        Ok(Mapped { map, numbers })
    }
}

/// Mapped numbers whose extent is known and whose map is not yet judged.
pub struct Mapped<'a> {
    map: u16,
    numbers: &'a [u8],
}

impl Mapped<'_> {
    pub fn unfold(&self, n: usize) -> Result<[i32; VARIABLES], Fault> {
        let mut list = [0; VARIABLES];
        let mut map = self.map;
        for number in self.numbers.chunks_exact(4) {
            let i = map.trailing_zeros() as usize;
            map &= map - 1;
            let value = i32::from_le_bytes([number[0], number[1], number[2], number[3]]);
            if i >= n || value == 0 {
                return Err(Fault::at(Cause::BadMap, i));
            }
            list[i] = value;
        }
        Ok(list)
    }
}
