//! Long pairs to measure by: 16 variables, tables of up to 512 rows, traces of up to 65,536 bytes.

use super::rng::Rng;
use super::write;
use crate::pack::Pair;

const VARIABLES: usize = 16;
const JOB_ROWS: usize = 64;
const TABLE_ROWS: usize = 512;

pub const KINDS: [(&str, fn() -> Pair); 6] = [
    ("cuts", cuts),
    ("chains", chains),
    ("pins", pins),
    ("branches", branches),
    ("infers", infers),
    ("takes", takes),
];

fn numbers(rng: &mut Rng) -> Vec<i32> {
    (0..VARIABLES).map(|_| rng.below(20) as i32 - 10).map(|v| if v == 0 { 10 } else { v }).collect()
}

/// A job of 16 variables, each between 0 and 0, and rows with all coefficients that 0 meets, up to 64.
fn fixed_job(theory: u8, parts: &[Vec<u8>]) -> Vec<u8> {
    let mut rng = Rng::new(1, 1);
    let mut job = vec![theory];
    (0..VARIABLES).for_each(|_| job.extend(write::variable(1)));
    for i in 0..VARIABLES {
        job.extend(write::row_raw(b'E', &[(i, 1)], 0));
    }
    for _ in 2 * VARIABLES..JOB_ROWS {
        job.extend(write::row(b'L', &numbers(&mut rng), 5));
    }
    parts.iter().for_each(|part| job.extend(part));
    job.push(b'E');
    job
}

fn ended(job: Vec<u8>, mut trace: Vec<u8>) -> Pair {
    trace.push(b'E');
    Pair { job, trace }
}

fn premises(rng: &mut Rng, count: usize) -> Vec<write::Premise> {
    (0..count).map(|_| (rng.below(JOB_ROWS) as u16, 1 + rng.below(3) as u16)).collect()
}

/// Cuts of 32 premises until the table is full.
fn cuts() -> Pair {
    let mut rng = Rng::new(2, 1);
    let records = (JOB_ROWS..TABLE_ROWS).map(|_| write::cut(&premises(&mut rng, 32), 1));
    ended(fixed_job(b'N', &[]), records.collect::<Vec<_>>().concat())
}

/// Chains of 8 lines of 31 premises.
fn chains() -> Pair {
    let mut rng = Rng::new(3, 1);
    let records = (0..63).map(|_| write::chain(&(0..8).map(|_| (premises(&mut rng, 31), 1)).collect::<Vec<_>>()));
    ended(fixed_job(b'N', &[]), records.collect::<Vec<_>>().concat())
}

/// Branches with all coefficients until the table is full, and then a pin for each subproblem.
fn pins() -> Pair {
    let mut rng = Rng::new(4, 1);
    let mut trace = write::take(&[0; VARIABLES]);
    (JOB_ROWS..TABLE_ROWS).for_each(|_| trace.extend(write::branch(&numbers(&mut rng), 7)));
    let places: Vec<u16> = (0..2 * VARIABLES as u16).collect();
    (JOB_ROWS..=TABLE_ROWS).for_each(|_| trace.extend(write::pin(&places)));
    ended(fixed_job(b'N', &[]), trace)
}

/// 302 branches that wait, and on them branches on 0 <= -1, each dropped at once, until the table is full.
fn branches() -> Pair {
    let mut trace = Vec::new();
    (0..302).for_each(|_| trace.extend(write::branch_raw(&[(0, 1)], 3)));
    for rows in JOB_ROWS + 302..TABLE_ROWS {
        trace.extend(write::branch_raw(&[], -1));
        trace.extend(write::drop(rows as u16));
    }
    ended(fixed_job(b'N', &[]), trace)
}

/// Inferences between batches whose starts are fixed, until the table is full.
fn infers() -> Pair {
    let parts: Vec<Vec<u8>> = (0..VARIABLES as u8).map(|i| write::batch(i, 1)).collect();
    let mut trace = write::branch_raw(&[(0, -1), (1, 1)], 0);
    (JOB_ROWS + 1..TABLE_ROWS).for_each(|_| trace.extend(write::infer(&[0, 1], &[JOB_ROWS as u16])));
    ended(fixed_job(b'O', &parts), trace)
}

/// Ever cheaper plans of 16 batches that do not overlap.
fn takes() -> Pair {
    let mut job = vec![b'O'];
    (0..VARIABLES).for_each(|_| job.extend(write::variable(1)));
    (0..VARIABLES as u8).for_each(|i| job.extend(write::batch(i, 10)));
    job.push(b'E');
    let records = (0..970).map(|k| write::take(&(0..16).map(|i| 10 * i - k - 400).collect::<Vec<i32>>()));
    ended(job, records.collect::<Vec<_>>().concat())
}
