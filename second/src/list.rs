//! A job in words.

use crate::job::Job;
use crate::row::Row;
use crate::theory::{Batch, Call, Theory};

pub fn list(job: &Job) -> String {
    let mut lines = vec![format!("theory {}", theory_name(&job.theory))];
    let costs = job.costs[..job.n].iter().enumerate();
    lines.extend(costs.map(|(i, cost)| format!("variable v{i} cost {cost}")));
    let rows = job.table.rows().iter().enumerate();
    lines.extend(rows.map(|(i, row)| format!("row {i}: {} <= {}", sum(row), row.rhs)));
    match &job.theory {
        Theory::Bare => {}
        Theory::Shared(calls) => {
            let calls = calls.iter().enumerate();
            lines.extend(calls.map(|(i, call)| format!("call {i}: {}", call_words(call, job.n))));
        }
        Theory::Vat(batches) => {
            let batches = batches.iter().enumerate();
            lines.extend(batches.map(|(i, batch)| format!("batch {i}: {}", batch_words(batch, job.n))));
        }
    }
    lines.iter().map(|line| format!("{line}\n")).collect()
}

fn theory_name(theory: &Theory) -> &'static str {
    match theory {
        Theory::Bare => "bare",
        Theory::Shared(_) => "shared results",
        Theory::Vat(_) => "one vat",
    }
}

fn sum(row: &Row) -> String {
    let mut words = String::new();
    for (i, &c) in row.coefs.iter().enumerate().filter(|(_, &c)| c != 0) {
        words.push_str(match (words.is_empty(), c < 0) {
            (true, true) => "-",
            (true, false) => "",
            (false, true) => " - ",
            (false, false) => " + ",
        });
        if c.abs() != 1 {
            words.push_str(&format!("{} ", c.abs()));
        }
        words.push_str(&format!("v{i}"));
    }
    if words.is_empty() {
        words.push('0');
    }
    words
}

fn place(place: u8, n: usize) -> String {
    if usize::from(place) < n {
        format!("v{place}")
    } else {
        "0".into()
    }
}

fn call_words(call: &Call, n: usize) -> String {
    let second = if call.second == 16 { String::new() } else { format!(", {}", place(call.second, n)) };
    format!("f{}({}{second}) = {}", call.function, place(call.first, n), place(call.result, n))
}

fn batch_words(batch: &Batch, n: usize) -> String {
    format!("starts at {}, takes {}", place(batch.start, n), batch.length)
}
