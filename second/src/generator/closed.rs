//! Derivations that close, and those that stop early or go on too long.

use super::jobs::{boxed, Boxed};
use super::rng::Rng;
use super::run::Run;
use super::solve::{plan, Solver, Style};
use super::write;
use crate::pack::Pair;

/// A boxed job and a run of accepted steps that leaves nothing open.
pub fn closed(rng: &mut Rng) -> (Boxed, Run) {
    loop {
        let job = boxed(rng);
        if let Some(run) = solved(rng, &job) {
            return (job, run);
        }
    }
}

fn solved(rng: &mut Rng, job: &Boxed) -> Option<Run> {
    let style = if rng.chance(1, 8) { Style::PLAIN } else { Style::random(rng) };
    let run = Run::open(job.spec.bytes());
    let mut solver = Solver { rng, run, style };
    solver.unscale().ok()?;
    if solver.rng.chance(1, 3) {
        take_best(&mut solver, job);
        if solver.rng.chance(2, 3) {
            let _ = solver.run.step(&write::cutoff());
        }
    }
    match solver.finish() {
        Ok(true) => Some(solver.run),
        _ => None,
    }
}

/// Takes a cheapest model at the start, if there is a model.
fn take_best(solver: &mut Solver, job: &Boxed) {
    let judged = points(job).into_iter().filter_map(|p| Some((solver.run.proof.judge(&plan(&p)).ok()?, p)));
    if let Some((_, best)) = judged.min() {
        let _ = solver.run.step(&write::take(&best));
    }
}

/// All points of the box.
pub fn points(job: &Boxed) -> Vec<Vec<i32>> {
    let mut list = vec![vec![]];
    for (&low, &high) in job.low.iter().zip(&job.high) {
        let longer = |p: &Vec<i32>| (low..=high).map(|v| [&p[..], &[v as i32]].concat()).collect::<Vec<_>>();
        list = list.iter().flat_map(longer).collect();
    }
    list
}

/// Ends somewhere on the way.
pub fn early(rng: &mut Rng) -> Pair {
    let (_, mut run) = closed(rng);
    let at = run.starts[rng.below(run.starts.len())];
    run.trace.truncate(at);
    run.end()
}

/// Goes on after everything is shut.
pub fn late(rng: &mut Rng) -> Pair {
    let (_, mut run) = closed(rng);
    let n = run.proof.n();
    let clue = vec![0; run.proof.theory().clue_bytes()];
    let more = [
        write::branch(&vec![1; n], 0),
        write::branch_raw(&[(0, 0)], 0),
        write::cut(&[(0, 1)], 1),
        write::cut(&[], 0),
        write::chain(&[(vec![(0, 1)], 1)]),
        write::infer(&clue, &[0]),
        write::cutoff(),
        write::take(&vec![1; n]),
        write::drop(0),
        write::pin(&vec![0; 2 * n]),
        vec![rng.draw() as u8],
        write::drop(0)[..2].to_vec(),
    ];
    for _ in 0..=rng.below(2) {
        let record = &more[rng.below(more.len())];
        run.force(record);
    }
    run.end()
}
