//! The three theories: which plans they admit, and the rule of each clue.

use crate::fault::{Cause, Fault};
use crate::limits::{BATCHES, CALLS, LENGTH, VARIABLES};
use crate::row::{Plan, Row};

#[derive(Clone, Copy, Debug)]
pub struct Call {
    pub function: u8,
    pub first: u8,
    pub second: u8,
    pub result: u8,
}

#[derive(Clone, Copy, Debug)]
pub struct Batch {
    pub start: u8,
    pub length: u32,
}

#[derive(Clone, Debug)]
pub enum Theory {
    Bare,
    Shared(Vec<Call>),
    Vat(Vec<Batch>),
}

/// Says: value at `a` minus value at `b` is at most `k`.
#[derive(Clone, Copy, Debug, PartialEq, Eq)]
pub struct Difference {
    pub a: u8,
    pub b: u8,
    pub k: i64,
}

impl Difference {
    const NIL: Difference = Difference { a: 16, b: 16, k: 0 };

    pub fn row(&self, n: usize) -> Row {
        let mut row = Row { rhs: self.k, ..Row::EMPTY };
        if usize::from(self.a) < n {
            row.coefs[usize::from(self.a)] += 1;
        }
        if usize::from(self.b) < n {
            row.coefs[usize::from(self.b)] -= 1;
        }
        row
    }

    /// Whether one of the places is from n to 15.
    pub fn leaves(&self, n: usize) -> bool {
        let outside = |place: u8| (n..VARIABLES).contains(&usize::from(place));
        outside(self.a) || outside(self.b)
    }
}

pub struct Rule {
    premises: [Difference; 4],
    count: usize,
    pub conclusion: Difference,
}

impl Rule {
    pub fn premises(&self) -> &[Difference] {
        &self.premises[..self.count]
    }
}

impl Call {
    fn rule(&self, other: &Call) -> Rule {
        let below = |a, b| Difference { a, b, k: 0 };
        Rule {
            premises: [
                below(self.first, other.first),
                below(other.first, self.first),
                below(self.second, other.second),
                below(other.second, self.second),
            ],
            count: 4,
            conclusion: below(self.result, other.result),
        }
    }

    fn agrees(&self, other: &Call, plan: &Plan) -> bool {
        let same = |a, b| plan.read(a) == plan.read(b);
        self.function != other.function
            || !same(self.first, other.first)
            || !same(self.second, other.second)
            || same(self.result, other.result)
    }
}

impl Batch {
    fn rule(&self, other: &Batch) -> Rule {
        let (a, b) = (other.start, self.start);
        let premise = Difference { a, b, k: i64::from(self.length) - 1 };
        let conclusion = Difference { a, b, k: -i64::from(other.length) };
        let nil = Difference::NIL;
        Rule { premises: [premise, nil, nil, nil], count: 1, conclusion }
    }

    fn is_clear_of(&self, other: &Batch, plan: &Plan) -> bool {
        let (mine, its) = (plan.read(self.start), plan.read(other.start));
        mine + i64::from(self.length) <= its || its + i64::from(other.length) <= mine
    }
}

fn all_pairs<T>(items: &[T], good: impl Fn(&T, &T) -> bool) -> bool {
    (1..items.len()).all(|j| items[..j].iter().all(|earlier| good(earlier, &items[j])))
}

impl Theory {
    pub fn clue_bytes(&self) -> usize {
        match self {
            Theory::Bare => 0,
            Theory::Shared(_) | Theory::Vat(_) => 2,
        }
    }

    pub fn admits(&self, plan: &Plan) -> bool {
        match self {
            Theory::Bare => true,
            Theory::Shared(calls) => all_pairs(calls, |a, b| a.agrees(b, plan)),
            Theory::Vat(batches) => all_pairs(batches, |a, b| a.is_clear_of(b, plan)),
        }
    }

    pub fn rule(&self, clue: &[u8]) -> Option<Rule> {
        let &[i, j] = clue else { return None };
        match self {
            Theory::Bare => None,
            Theory::Shared(calls) => {
                let (a, b) = (calls.get(usize::from(i))?, calls.get(usize::from(j))?);
                (a.function == b.function).then(|| a.rule(b))
            }
            Theory::Vat(batches) => {
                let (a, b) = (batches.get(usize::from(i))?, batches.get(usize::from(j))?);
                (i != j).then(|| a.rule(b))
            }
        }
    }
}

pub fn add_call(calls: &mut Vec<Call>, call: Call) -> Result<(), Fault> {
    let fields = [(call.first, 15), (call.second, 16), (call.result, 15)];
    if let Some(i) = fields.iter().position(|&(place, most)| place > most) {
        return Err(Fault::at(Cause::OutOfRange, i + 1));
    }
    if calls.len() == CALLS {
        return Err(Cause::Full.into());
    }
    calls.push(call);
    Ok(())
}

pub fn add_batch(batches: &mut Vec<Batch>, batch: Batch) -> Result<(), Fault> {
    if usize::from(batch.start) >= VARIABLES {
        return Err(Fault::at(Cause::OutOfRange, 0));
    }
    if !(1..=LENGTH).contains(&batch.length) {
        return Err(Fault::at(Cause::OutOfRange, 1));
    }
    if batches.len() == BATCHES {
        return Err(Cause::Full.into());
    }
    batches.push(batch);
    Ok(())
}
