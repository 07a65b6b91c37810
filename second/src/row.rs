//! Rows, plans and the table.

use crate::fault::{Cause, Fault};
use crate::limits::{coefficient_ok, right_side_ok, COEFFICIENT, TABLE_ROWS, VARIABLES};
use crate::step::CutBody;

/// An inequality: sum of coefficient times value at most `rhs`. Coefficients of n and more are 0.
#[derive(Clone, Copy, Debug, PartialEq, Eq)]
pub struct Row {
    pub coefs: [i32; VARIABLES],
    pub rhs: i64,
}

impl Row {
    pub const EMPTY: Row = Row { coefs: [0; VARIABLES], rhs: 0 };

    pub fn met_by(&self, plan: &Plan) -> bool {
        plan.weigh(&self.coefs) <= self.rhs
    }

    pub fn opposite(&self) -> Row {
        Row { coefs: self.coefs.map(|c| -c), rhs: -self.rhs - 1 }
    }

    pub fn turned(&self) -> Row {
        Row { coefs: self.coefs.map(|c| -c), rhs: -self.rhs }
    }

    pub fn has_coefficients(&self) -> bool {
        self.coefs != [0; VARIABLES]
    }

    /// Whether the coefficient at `i` is `sign` and all others are 0.
    pub fn is_alone(&self, i: usize, sign: i32) -> bool {
        let mut alone = [0; VARIABLES];
        alone[i] = sign;
        self.coefs == alone
    }

    /// The first coefficient outside the row limits.
    pub fn wide_coefficient(&self) -> Option<usize> {
        self.coefs.iter().position(|&c| !coefficient_ok(c))
    }
}

/// Values of n and more are 0, so every place below 16 can be read.
#[derive(Clone, Copy, Debug, PartialEq, Eq)]
pub struct Plan {
    pub values: [i32; VARIABLES],
}

impl Plan {
    pub fn weigh(&self, coefs: &[i32; VARIABLES]) -> i64 {
        let products = coefs.iter().zip(&self.values);
        products.map(|(&c, &v)| i64::from(c) * i64::from(v)).sum()
    }

    pub fn read(&self, place: u8) -> i64 {
        self.values.get(usize::from(place)).map_or(0, |&v| i64::from(v))
    }
}

pub struct Table {
    rows: Box<[Row; TABLE_ROWS]>,
    len: usize,
}

impl Default for Table {
    fn default() -> Table {
        Table { rows: Box::new([Row::EMPTY; TABLE_ROWS]), len: 0 }
    }
}

impl Table {
    pub fn rows(&self) -> &[Row] {
        &self.rows[..self.len]
    }

    pub fn len(&self) -> usize {
        self.len
    }

    pub fn is_empty(&self) -> bool {
        self.len == 0
    }

    pub fn has_room(&self, more: usize) -> bool {
        self.len + more <= TABLE_ROWS
    }

    /// There must be room.
    pub fn push(&mut self, row: Row) {
        self.rows[self.len] = row;
        self.len += 1;
    }

    pub fn truncate(&mut self, len: usize) {
        self.len = len;
    }

    /// Keeps the first `height` rows and the opposite of the next.
    pub fn turn_at(&mut self, height: usize) {
        self.rows[height] = self.rows[height].opposite();
        self.len = height + 1;
    }

    /// Checks 5, 6 and 7 of a cut whose numbers have passed; the new row. No sum here leaves 64 bits:
    /// 32 premises times 10,000 times 20,000,000,000,000 is below 2^63.
    pub fn combine(&self, n: usize, cut: &CutBody) -> Result<Row, Fault> {
        let mut sums = [0i64; VARIABLES];
        let mut rhs = 0i64;
        let rows = self.rows();
        for (i, (place, multiplier)) in cut.premises().enumerate() {
            let row = rows.get(usize::from(place)).ok_or(Fault::at(Cause::NoSuchPlace, i))?;
            let times = i64::from(multiplier);
            for (sum, &c) in sums[..n].iter_mut().zip(&row.coefs) {
                *sum += times * i64::from(c);
            }
            rhs += times * row.rhs;
        }
        if cut.divisor != 1 {
            let divisor = i64::from(cut.divisor);
            divide(&mut sums[..n], divisor)?;
            rhs = rhs.div_euclid(divisor);
        }
        narrow(&sums, rhs)
    }
}

fn divide(sums: &mut [i64], divisor: i64) -> Result<(), Fault> {
    for (i, sum) in sums.iter_mut().enumerate().filter(|(_, sum)| **sum != 0) {
        let quotient = *sum / divisor;
        if quotient * divisor != *sum {
            return Err(Fault::at(Cause::NotDivisible, i));
        }
        *sum = quotient;
    }
    Ok(())
}

fn narrow(sums: &[i64; VARIABLES], rhs: i64) -> Result<Row, Fault> {
    let limit = i64::from(COEFFICIENT);
    if let Some(i) = sums.iter().position(|s| !(-limit..=limit).contains(s)) {
        return Err(Fault::at(Cause::RowTooLarge, i));
    }
    if !right_side_ok(rhs) {
        return Err(Fault::at(Cause::RowTooLarge, 16));
    }
    Ok(Row { coefs: sums.map(|s| s as i32), rhs })
}
