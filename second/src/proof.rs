//! A proof: the open subproblems, the plan taken, and the eight steps.

use crate::fault::{Cause, Fault};
use crate::job::Job;
use crate::limits::{right_side_ok, value_ok, LINES, TABLE_ROWS, VARIABLES};
use crate::row::{Plan, Row, Table};
use crate::step::{CutBody, Lines, Places, Step};
use crate::theory::Theory;

#[derive(Clone, Copy, Debug, PartialEq, Eq)]
pub struct Taken {
    pub plan: Plan,
    pub cost: i64,
}

/// Heights are never below the number of job rows, so the table always begins with the job's rows.
pub struct Proof {
    n: usize,
    costs: [i32; VARIABLES],
    theory: Theory,
    table: Table,
    job_rows: usize,
    waiting: Vec<u16>,
    open: bool,
    taken: Option<Taken>,
}

type Answer = Result<(), Fault>;

impl Proof {
    pub fn open(job: Job) -> Proof {
        Proof {
            n: job.n,
            costs: job.costs,
            theory: job.theory,
            job_rows: job.table.len(),
            table: job.table,
            waiting: Vec::with_capacity(TABLE_ROWS),
            open: true,
            taken: None,
        }
    }

    pub fn n(&self) -> usize {
        self.n
    }

    pub fn costs(&self) -> &[i32] {
        &self.costs[..self.n]
    }

    pub fn theory(&self) -> &Theory {
        &self.theory
    }

    pub fn rows(&self) -> &[Row] {
        self.table.rows()
    }

    pub fn is_open(&self) -> bool {
        self.open
    }

    pub fn taken(&self) -> Option<&Taken> {
        self.taken.as_ref()
    }

    /// The number of rows in the table, and of open subproblems.
    pub fn look(&self) -> (usize, usize) {
        (self.table.len(), if self.open { self.waiting.len() + 1 } else { 0 })
    }

    pub fn apply(&mut self, step: &Step) -> Answer {
        if !self.open {
            return Err(Cause::NothingOpen.into());
        }
        match step {
            Step::Branch(row) => self.branch(row),
            Step::Cut(body) => self.cut(body),
            Step::Chain(lines) => self.chain(lines),
            Step::Infer { clue, places } => self.infer(clue, places),
            Step::Cutoff => self.cutoff(),
            Step::Take(plan) => self.take(plan),
            Step::Drop(place) => self.drop_at(*place),
            Step::Pin(places) => self.pin(places),
        }
    }

    fn room(&self, more: usize) -> Answer {
        if self.table.has_room(more) {
            Ok(())
        } else {
            Err(Cause::Full.into())
        }
    }

    fn row(&self, place: usize, spot: usize) -> Result<&Row, Fault> {
        self.table.rows().get(place).ok_or(Fault::at(Cause::NoSuchPlace, spot))
    }

    fn branch(&mut self, row: &Row) -> Answer {
        if let Some(i) = row.wide_coefficient() {
            return Err(Fault::at(Cause::OutOfRange, i));
        }
        // For every i64, !r is -r - 1.
        if !right_side_ok(row.rhs) || !right_side_ok(!row.rhs) {
            return Err(Fault::at(Cause::OutOfRange, self.n));
        }
        self.room(1)?;
        self.waiting.push(self.table.len() as u16);
        self.table.push(*row);
        Ok(())
    }

    fn cut(&mut self, body: &CutBody) -> Answer {
        body.check_numbers()?;
        self.room(1)?;
        self.table.push(self.table.combine(self.n, body)?);
        Ok(())
    }

    fn chain(&mut self, lines: &Lines) -> Answer {
        if !(1..=LINES).contains(&lines.count) {
            return Err(Cause::WrongLength.into());
        }
        self.room(lines.count)?;
        let height = self.table.len();
        let last = self.work(lines);
        self.table.truncate(height);
        self.table.push(last?);
        Ok(())
    }

    /// Puts the rows of all lines on the table, and returns the last.
    fn work(&mut self, lines: &Lines) -> Result<Row, Fault> {
        let mut last = Row::EMPTY;
        for (line, body) in (1..).zip(lines.iter()) {
            let row = body.check_numbers().and_then(|()| self.table.combine(self.n, &body));
            last = row.map_err(|fault| fault.in_line(line))?;
            self.table.push(last);
        }
        Ok(last)
    }

    fn infer(&mut self, clue: &[u8], places: &Places) -> Answer {
        let rule = self.theory.rule(clue).ok_or(Cause::NoRule)?;
        let mut all = rule.premises().iter().chain([&rule.conclusion]);
        if let Some(i) = all.position(|difference| difference.leaves(self.n)) {
            return Err(Fault::at(Cause::PlaceNotVariable, i));
        }
        if places.len() != rule.premises().len() {
            return Err(Cause::WrongLength.into());
        }
        self.room(1)?;
        let wanted = || rule.premises().iter().map(|premise| premise.row(self.n)).zip(places.iter());
        for (i, (premise, place)) in wanted().enumerate() {
            if premise.has_coefficients() {
                self.row(place, i)?;
            }
        }
        for (i, (premise, place)) in wanted().enumerate() {
            if !self.shows(&premise, place) {
                return Err(Fault::at(Cause::PremiseNotShown, i));
            }
        }
        self.table.push(rule.conclusion.row(self.n));
        Ok(())
    }

    /// The place is in the table if the premise has coefficients.
    fn shows(&self, premise: &Row, place: usize) -> bool {
        if !premise.has_coefficients() {
            return premise.rhs >= 0;
        }
        let row = &self.table.rows()[place];
        row.coefs == premise.coefs && row.rhs <= premise.rhs
    }

    fn cutoff(&mut self) -> Answer {
        let taken = self.taken.as_ref().ok_or(Cause::NoPlanTaken)?;
        self.room(1)?;
        self.table.push(Row { coefs: self.costs, rhs: taken.cost - 1 });
        Ok(())
    }

    fn take(&mut self, plan: &Plan) -> Answer {
        let cost = self.judge(plan)?;
        self.taken = Some(Taken { plan: *plan, cost });
        Ok(())
    }

    /// Checks 3, 13, 14 and 15 of a take; the cost of the plan.
    pub fn judge(&self, plan: &Plan) -> Result<i64, Fault> {
        if let Some(i) = plan.values.iter().position(|&v| !value_ok(v)) {
            return Err(Fault::at(Cause::OutOfRange, i));
        }
        let job_rows = &self.table.rows()[..self.job_rows];
        if let Some(i) = job_rows.iter().position(|row| !row.met_by(plan)) {
            return Err(Fault::at(Cause::RowMissed, i));
        }
        if !self.theory.admits(plan) {
            return Err(Cause::NotAdmitted.into());
        }
        let cost = plan.weigh(&self.costs);
        if !self.is_cheaper(cost) {
            return Err(Cause::NotCheaper.into());
        }
        Ok(cost)
    }

    /// Every cost is cheaper than no plan.
    fn is_cheaper(&self, cost: i64) -> bool {
        self.taken.as_ref().is_none_or(|taken| cost < taken.cost)
    }

    fn drop_at(&mut self, place: usize) -> Answer {
        let row = self.row(place, 0)?;
        if row.has_coefficients() || row.rhs >= 0 {
            return Err(Cause::NotContradiction.into());
        }
        self.shut();
        Ok(())
    }

    fn pin(&mut self, places: &Places) -> Answer {
        for (i, place) in places.iter().enumerate() {
            self.row(place, i)?;
        }
        let mut point = Plan { values: [0; VARIABLES] };
        for (i, (up, down)) in places.pairs().enumerate() {
            let value = self.fixed(i, up, down);
            point.values[i] = value.ok_or(Fault::at(Cause::NotFixed, i))?;
        }
        let meets_all = self.table.rows().iter().all(|row| row.met_by(&point));
        let cost = point.weigh(&self.costs);
        if meets_all && self.theory.admits(&point) && self.is_cheaper(cost) {
            return Err(Cause::PointStaysOpen.into());
        }
        self.shut();
        Ok(())
    }

    /// The value at which two rows of the table fix variable i.
    fn fixed(&self, i: usize, up: usize, down: usize) -> Option<i32> {
        let (up, down) = (&self.table.rows()[up], &self.table.rows()[down]);
        let value = i32::try_from(up.rhs).ok().filter(|&v| value_ok(v))?;
        let fixes = up.is_alone(i, 1) && down.is_alone(i, -1) && down.rhs == -up.rhs;
        fixes.then_some(value)
    }

    fn shut(&mut self) {
        match self.waiting.pop() {
            Some(height) => self.table.turn_at(usize::from(height)),
            None => {
                self.open = false;
                self.table.truncate(self.job_rows);
            }
        }
    }
}
