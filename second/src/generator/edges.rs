//! Pairs at the limits, and one past them.

use super::jobs::JobSpec;
use super::rng::Rng;
use super::run::Run;
use super::solve::{Solver, Style};
use super::write::{self, Line, Premise};
use crate::pack::Pair;

pub type Scenario = fn(&mut Rng) -> Pair;

pub const SCENARIOS: [Scenario; 30] = [
    variables,
    job_rows,
    calls,
    batches,
    job_numbers,
    full_table,
    full_table,
    full_table,
    chain_brim,
    chain_brim,
    premises,
    multipliers,
    divisors,
    lines,
    cut_limits,
    cut_limits,
    branch_limits,
    branch_limits,
    job_bytes,
    trace_bytes,
    trace_bytes,
    depths,
    depths,
    values,
    pins,
    places,
    infer_counts,
    great_sums,
    great_costs,
    no_variables,
];

fn boxed_job(theory: u8, n: usize, low: i64, high: i64) -> JobSpec {
    let mut spec = JobSpec::new(theory, &vec![1; n]);
    (0..n).for_each(|i| spec.bound(i, low, high));
    spec
}

fn variables(rng: &mut Rng) -> Pair {
    let n = rng.pick(&[15, 16, 16, 17, 17]);
    let mut spec = JobSpec::new(rng.pick(b"NSO"), &vec![rng.pick(&[1, -1, 1_000_000]); n]);
    if n < 17 {
        spec.rows.push((b'L', vec![rng.pick(&[1, -1]); n], 3));
    }
    let steps = [write::take(&vec![rng.pick(&[0, 1]); n.min(16)]), write::cutoff()].concat();
    Pair { job: spec.bytes(), trace: [steps, b"E".to_vec()].concat() }
}

fn job_rows(rng: &mut Rng) -> Pair {
    let n = rng.below(3);
    let mut spec = JobSpec::new(rng.pick(b"NSO"), &vec![1; n]);
    let count = rng.pick(&[61, 62, 63, 64]);
    spec.rows = vec![(rng.pick(b"LG"), vec![1; n], 0); count];
    for _ in 0..=rng.below(2) {
        spec.rows.push((rng.pick(b"LGE"), vec![1; n], 0));
    }
    Pair { job: spec.bytes(), trace: [write::cut(&[(63, 1)], 1), b"E".to_vec()].concat() }
}

fn calls(rng: &mut Rng) -> Pair {
    let n = rng.pick(&[0, 1, 16]);
    let mut spec = JobSpec::new(b'S', &vec![1; n]);
    for _ in 0..rng.pick(&[15, 16, 17]) {
        spec.calls.push([0, rng.below(16) as u8, rng.below(17) as u8, rng.below(16) as u8]);
    }
    let clue = [rng.pick(&[0, 14, 15]), rng.pick(&[14, 15, 16])];
    let step = if rng.chance(1, 2) { write::infer(&clue, &[0; 4]) } else { write::take(&vec![1; n]) };
    Pair { job: spec.bytes(), trace: [step, b"E".to_vec()].concat() }
}

fn batches(rng: &mut Rng) -> Pair {
    let n = rng.pick(&[0, 1, 16]);
    let mut spec = JobSpec::new(b'O', &vec![1; n]);
    for i in 0..rng.pick(&[15, 16, 17]) {
        spec.batches.push((i % 16, rng.pick(&[1, 1, 1_000_000])));
    }
    let clue = [rng.pick(&[0, 14, 15]), rng.pick(&[14, 15, 16])];
    let starts: Vec<i32> = (0..n as i32).map(|i| i * rng.pick(&[1, 60_000])).collect();
    let step = if rng.chance(1, 2) { write::infer(&clue, &[0]) } else { write::take(&starts) };
    Pair { job: spec.bytes(), trace: [step, b"E".to_vec()].concat() }
}

fn job_numbers(rng: &mut Rng) -> Pair {
    let edge = rng.pick(&[1_000_000, 1_000_001, -1_000_000, -1_000_001, i32::MIN, i32::MAX]);
    let right = 20_000_000_000_000;
    let far = rng.pick(&[right, right + 1, -right, -right - 1, i64::MIN, i64::MAX]);
    let mut spec = JobSpec::new(rng.pick(b"SO"), &[1, 1]);
    match rng.below(5) {
        0 => spec.costs[rng.below(2)] = edge,
        1 => spec.rows.push((rng.pick(b"LGEQ"), vec![1, edge], 5)),
        2 => spec.rows.push((rng.pick(b"LGEQ"), vec![edge, 1], far)),
        3 => spec.rows.push((rng.pick(b"LGE"), vec![0, 1], far)),
        _ if spec.theory == b'S' => {
            spec.calls.push([255, rng.pick(&[15, 16]), rng.pick(&[15, 16, 17]), rng.pick(&[15, 16])]);
        }
        _ => spec.batches.push((rng.pick(&[15, 16]), rng.pick(&[0, 1, 1_000_000, 1_000_001, u32::MAX]))),
    }
    Pair { job: spec.bytes(), trace: [write::take(&[1, 1]), b"E".to_vec()].concat() }
}

/// A job in which every step that adds a row can be made again and again.
fn generous(rng: &mut Rng) -> Run {
    let theory = rng.pick(b"SO");
    let mut spec = JobSpec::new(theory, &[1]);
    spec.rows.push((b'L', vec![], -1));
    spec.rows.push((b'L', vec![1], 3));
    if rng.chance(3, 4) {
        spec.rows.remove(0);
    }
    if theory == b'S' {
        spec.calls = vec![[7, 0, 16, 0]];
    } else {
        spec.batches = vec![(0, 1), (0, 2)];
        spec.batches.truncate(if rng.chance(1, 2) { 1 } else { 2 });
    }
    let mut run = Run::open(spec.bytes());
    let _ = run.step(&write::take(&[0]));
    run
}

fn adder(rng: &mut Rng, letter: u8, run: &Run) -> Vec<u8> {
    let height = run.height() as u16;
    match letter {
        b'B' => write::branch(&[rng.pick(&[0, 1])], rng.range(-5, 5)),
        b'C' => write::cut(&[(rng.below(run.height()) as u16, 1)], 1),
        b'L' => write::chain(&[(vec![(0, 1)], 1), (vec![(height, 1)], 1)][..1 + rng.below(2)]),
        b'I' if run.job[0] == b'S' => write::infer(&[0, 0], &[0; 4]),
        b'I' => write::infer(&[0, 1], &[0]),
        _ => write::cutoff(),
    }
}

/// Fills the table, then adds one row more, or shuts what is open.
fn full_table(rng: &mut Rng) -> Pair {
    let mut run = generous(rng);
    let goal = rng.pick(&[511, 512, 512, 512]);
    let filler = rng.pick(b"BCCLIK");
    while run.height() < goal {
        let letter = if rng.chance(1, 8) { rng.pick(b"BCK") } else { filler };
        let record = adder(rng, letter, &run);
        if run.step(&record).is_err() {
            let _ = run.step(&write::cut(&[(0, 1)], 1));
        }
    }
    match rng.below(6) {
        0 => {
            while let Some(place) = run.contradiction().filter(|_| run.proof.is_open()) {
                let _ = run.step(&write::drop(place));
            }
        }
        1 => {}
        _ => {
            let letter = rng.pick(b"BCLIKK");
            let record = adder(rng, letter, &run);
            run.force(&record);
        }
    }
    run.end()
}

fn chain_brim(rng: &mut Rng) -> Pair {
    let mut run = generous(rng);
    let count = rng.pick(&[0, 1, 2, 7, 8, 8, 9]);
    let goal = if count == 9 { 512 } else { (512 - count + rng.pick(&[0, 0, 1])).min(512) };
    while run.height() < goal {
        let _ = run.step(&write::cut(&[(0, 1)], 1));
    }
    let lines: Vec<Line> = (0..count).map(|k| (vec![((goal + k) as u16 - 1, 1)], 1)).collect();
    run.force(&write::chain(&lines));
    if rng.chance(1, 2) {
        let place = rng.pick(&[goal as u16, goal as u16 + 1, 511]);
        run.force(&write::cut(&[(place, 1)], 1));
    }
    run.end()
}

/// The body as a cut, or as one line of a chain.
fn cut_or_line(rng: &mut Rng, premises: Vec<Premise>, divisor: u32) -> Vec<u8> {
    if rng.chance(1, 2) {
        return write::cut(&premises, divisor);
    }
    let count = rng.pick(&[1, 2, 8]);
    let mut lines: Vec<Line> = vec![(vec![(0, 1)], 1); count];
    lines[rng.below(count)] = (premises, divisor);
    write::chain(&lines)
}

fn one_step(spec: &JobSpec, step: &[u8]) -> Pair {
    Pair { job: spec.bytes(), trace: [step, b"E"].concat() }
}

fn premises(rng: &mut Rng) -> Pair {
    let spec = boxed_job(b'N', 2, 0, 5);
    let count = rng.pick(&[0, 1, 31, 32, 32, 33, 33, 34, 255]);
    let list = (0..count).map(|_| (rng.below(4) as u16, 1)).collect();
    one_step(&spec, &cut_or_line(rng, list, 1))
}

fn multipliers(rng: &mut Rng) -> Pair {
    let spec = boxed_job(rng.pick(b"NSO"), 2, -1, 5);
    let mut list = vec![(0, 1); 1 + rng.below(4)];
    let at = rng.below(list.len());
    list[at].1 = rng.pick(&[0, 1, 10_000, 10_001, 65_535]);
    if rng.chance(1, 6) {
        list[0].0 = rng.pick(&[3, 4, 65_535]);
    }
    let divisor = rng.pick(&[1, 1, 1, 0, 1_000_001]);
    one_step(&spec, &cut_or_line(rng, list, divisor))
}

fn divisors(rng: &mut Rng) -> Pair {
    let mut spec = JobSpec::new(rng.pick(b"NSO"), &[1, 1]);
    let coef = rng.pick(&[1_000_000, 999_999, 0, -1_000_000]);
    spec.rows.push((b'L', vec![0, coef], rng.pick(&[-1, 0, 1, 999_999, -1_000_001, 20_000_000_000_000])));
    let list = vec![(0, 1); 1 + rng.below(3)];
    let divisor = rng.pick(&[0, 1, 2, 3, 1_000_000, 1_000_000, 1_000_001, u32::MAX]);
    one_step(&spec, &cut_or_line(rng, list, divisor))
}

fn lines(rng: &mut Rng) -> Pair {
    let spec = boxed_job(rng.pick(b"NSO"), 1, 0, 1);
    let count = rng.pick(&[0, 1, 7, 8, 8, 9, 9, 255]);
    let list: Vec<Line> = (0..count).map(|k| (vec![(rng.below(2 + k) as u16, 1)], 1)).collect();
    let record = write::chain(&list);
    let cut_short = rng.chance(1, 5);
    let shown = if cut_short { &record[..rng.below(record.len()) + 1] } else { &record[..] };
    one_step(&spec, shown)
}

/// New rows that reach the limits, or pass them, on the way or at the end.
fn cut_limits(rng: &mut Rng) -> Pair {
    let right = 20_000_000_000_000;
    let mut spec = JobSpec::new(b'N', &[1, 1]);
    spec.rows.push((b'L', vec![500_000, 0], 3));
    spec.rows.push((b'L', vec![0, -1_000_000], 4));
    spec.rows.push((b'L', vec![1, 0], right / 2));
    spec.rows.push((b'G', vec![1, 0], right));
    spec.rows.push((b'L', vec![1, 0], 1));
    spec.rows.push((b'L', vec![0, 0], -1));
    spec.rows.push((b'L', vec![1_000_000, 3], 0));
    let sums: [(&[Premise], u32); 13] = [
        (&[(6, 3)], 2),
        (&[(6, 3)], 2),
        (&[(6, 3)], 1),
        (&[(0, 2)], 1),
        (&[(0, 2), (4, 1)], 1),
        (&[(1, 1)], 1),
        (&[(1, 2)], 1),
        (&[(1, 2)], 2),
        (&[(2, 2)], 1),
        (&[(2, 2), (4, 1)], 1),
        (&[(3, 1)], 1),
        (&[(3, 1), (5, 1)], 1),
        (&[(3, 10_000), (1, 10_000), (5, 1)], 10_000),
    ];
    let (list, divisor) = sums[rng.below(sums.len())];
    one_step(&spec, &cut_or_line(rng, list.to_vec(), divisor))
}

fn branch_limits(rng: &mut Rng) -> Pair {
    let n = rng.below(3);
    let spec = boxed_job(rng.pick(b"NSO"), n, 0, 1);
    let right = 20_000_000_000_000;
    let rhs = rng.pick(&[right - 1, right, right, right + 1, -right, -right - 1, i64::MIN, i64::MAX]);
    let edge = rng.pick(&[1, 1, 1, 1_000_000, -1_000_000, 1_000_001, -1_000_001, i32::MIN]);
    let step = write::branch(&vec![edge; n], rhs);
    let again = write::branch(&vec![-1; n], -5);
    one_step(&spec, &[step, again].concat())
}

fn job_bytes(rng: &mut Rng) -> Pair {
    let spec = boxed_job(rng.pick(b"NSO"), rng.below(3), 0, 1);
    let mut job = spec.bytes();
    if rng.chance(1, 3) {
        job = rng.pick(&[&b"NE"[..], b"N", b"X"]).to_vec();
    }
    job.resize(rng.pick(&[65_536, 65_536, 65_537, 65_600]), rng.pick(b"EV\0"));
    let mut trace = b"E".to_vec();
    trace.resize(rng.pick(&[1, 65_537]), 0);
    Pair { job, trace }
}

/// A trace of good steps that has a given length.
fn trace_bytes(rng: &mut Rng) -> Pair {
    let goal = rng.pick(&[65_535, 65_536, 65_536, 65_537, 65_537]);
    let mut spec = boxed_job(rng.pick(b"NSO"), 1, 0, 1);
    spec.rows.push((b'L', vec![0], -1));
    let mut run = Run::open(spec.bytes());
    let tail = write::drop(2).len() + 1;
    let full = write::chain(&vec![(vec![(2, 1); 32], 1); 8]);
    while run.trace.len() + tail + 3 * full.len() < goal {
        let _ = run.step(&full);
    }
    // Records of 7 and 4 for each premise change the length by 3 modulo 4.
    while !(goal - tail - run.trace.len()).is_multiple_of(4) {
        let _ = run.step(&write::chain(&[(vec![(2, 1)], 1)]));
    }
    while goal - tail - run.trace.len() > 0 {
        let left = goal - tail - run.trace.len();
        let both = if left > 268 { 32 } else { (left - 12) / 4 };
        for count in [both / 2, both - both / 2] {
            let _ = run.step(&write::cut(&vec![(2, 1); count], 1));
        }
    }
    run.force(&write::drop(2));
    let mut pair = run.end();
    if rng.chance(1, 5) {
        pair.trace.pop();
    }
    pair
}

/// Branches that many times, then shuts all, some or nothing.
fn depths(rng: &mut Rng) -> Pair {
    let depth = rng.pick(&[19, 64, 211, 302, 510]);
    let mut spec = JobSpec::new(rng.pick(b"NSO"), &[rng.pick(&[1, -1, 0])]);
    spec.bound(0, 0, depth);
    if rng.chance(1, 4) && depth < 510 {
        spec.rows.push((b'L', vec![0], -1));
    }
    let mut solver = Solver { run: Run::open(spec.bytes()), rng, style: Style::PLAIN };
    for k in (0..depth).rev() {
        let _ = solver.run.step(&write::branch(&[1], k));
    }
    let shuts = match solver.rng.below(4) {
        0 => 0,
        1 => solver.rng.below(depth as usize + 1),
        _ => 10_000,
    };
    let mut moves = 0;
    while moves < shuts && solver.run.proof.is_open() {
        if solver.node().is_err() {
            break;
        }
        moves += 1;
    }
    if solver.rng.chance(1, 8) {
        solver.run.force(&write::drop(0));
    }
    solver.run.end()
}

fn values(rng: &mut Rng) -> Pair {
    let n = 1 + rng.below(3);
    let mut spec = JobSpec::new(rng.pick(b"NSO"), &vec![rng.pick(&[1, -1_000_000]); n]);
    if rng.chance(1, 3) {
        spec.rows.push((b'L', vec![1; n], 1_000_000));
    }
    let mut list = vec![rng.pick(&[0, 1]); n];
    list[rng.below(n)] = rng.pick(&[1_000_000, -1_000_000, 1_000_001, -1_000_001, i32::MIN, i32::MAX]);
    one_step(&spec, &[write::take(&list), write::cutoff()].concat())
}

fn pins(rng: &mut Rng) -> Pair {
    let value = rng.pick(&[1_000_000, -1_000_000, 1_000_001, -1_000_001, 20_000_000_000_000]);
    let mut spec = JobSpec::new(rng.pick(b"NSO"), &[1, -1]);
    spec.bound(0, 5, 5);
    spec.bound(1, value, value);
    spec.rows.push((rng.pick(b"LG"), vec![1, 1], rng.pick(&[0, value + 5])));
    let take = write::take(&[5, value.clamp(-1_000_000, 1_000_000) as i32]);
    let mut places = vec![0, 1, 2, 3];
    if rng.chance(1, 4) {
        places[rng.below(4)] = rng.below(5) as u16;
    }
    let pin = write::pin(&places);
    let steps = if rng.chance(1, 2) && value.abs() <= 1_000_000 { [take, pin].concat() } else { pin };
    one_step(&spec, &steps)
}

/// Places at the end of the table and past it.
fn places(rng: &mut Rng) -> Pair {
    let theory = rng.pick(b"SO");
    let mut spec = boxed_job(theory, 2, 0, 0);
    spec.rows.push((b'E', vec![1, -1], 0));
    spec.calls = if theory == b'S' { vec![[3, 0, 16, 1], [3, 1, 16, 0]] } else { vec![] };
    spec.batches = if theory == b'O' { vec![(0, 2), (1, 1)] } else { vec![] };
    let place = rng.pick(&[5, 6, 7, 511, 512, 65_535]);
    let mut four = vec![4, 5, 0, 0];
    let at = rng.below(4);
    four[at] = place;
    let one = vec![rng.pick(&[5, place])];
    let step = match rng.below(5) {
        0 => write::drop(place),
        1 => write::pin(&four),
        2 => write::cut(&four.iter().map(|&p| (p, 1)).collect::<Vec<_>>(), 1),
        3 => write::chain(&[(vec![(0, 1)], 1), (vec![(6, 1), (place, 1)], 1)]),
        _ if theory == b'S' => write::infer(&[0, 1], &four),
        _ => write::infer(&[0, 1], &one),
    };
    one_step(&spec, &step)
}

fn infer_counts(rng: &mut Rng) -> Pair {
    let theory = rng.pick(b"NSO");
    let n = rng.below(4);
    let mut spec = JobSpec::new(theory, &vec![1; n]);
    spec.rows.push((b'L', vec![0; n], 0));
    let place = |rng: &mut Rng| if n == 0 { rng.below(16) as u8 } else { rng.below(n + 1) as u8 };
    for _ in 0..2 {
        match theory {
            b'S' => spec.calls.push([9, place(rng), rng.pick(&[16, 16, 0]), place(rng)]),
            b'O' => spec.batches.push((place(rng), rng.pick(&[1, 1_000_000]))),
            _ => {}
        }
    }
    let clue: &[u8] = if theory == b'N' { &[] } else { &[rng.pick(&[0, 1]), rng.pick(&[0, 1, 2])] };
    let count = rng.pick(&[0, 1, 1, 3, 4, 4, 5, 255]);
    one_step(&spec, &write::infer(clue, &vec![rng.pick(&[0, 1, 65_535]); count]))
}

/// The largest sums that a cut can make.
fn great_sums(rng: &mut Rng) -> Pair {
    let right = 20_000_000_000_000;
    let mut spec = JobSpec::new(b'N', &[0; 16]);
    spec.rows.push((rng.pick(b"LG"), vec![rng.pick(&[1_000_000, -1_000_000]); 16], right));
    spec.rows.push((rng.pick(b"LG"), vec![1_000_000; 16], -right));
    let other = rng.below(2) as u16;
    let list: Vec<Premise> = (0..32).map(|k| (if k % 2 == 0 { 0 } else { other }, 10_000)).collect();
    let divisor = rng.pick(&[1, 320_000, 319_999, 1_000_000, 640_000]);
    one_step(&spec, &cut_or_line(rng, list, divisor))
}

fn great_costs(rng: &mut Rng) -> Pair {
    let cost = rng.pick(&[1_000_000, -1_000_000]);
    let mut run = Run::open(JobSpec::new(rng.pick(b"NSO"), &[cost; 16]).bytes());
    for value in [1_000_000, 999_999, rng.pick(&[0, 3]), -1_000_000] {
        let value = if rng.chance(1, 10) { -value } else { value };
        run.force(&write::take(&[value * cost.signum(); 16]));
        run.force(&write::cutoff());
    }
    run.end()
}

fn no_variables(rng: &mut Rng) -> Pair {
    let mut spec = JobSpec::new(rng.pick(b"NSO"), &[]);
    let rhs = rng.pick(&[-1, 0, 1, 20_000_000_000_000]);
    if rng.chance(2, 3) {
        spec.rows.push((rng.pick(b"LGE"), vec![], rhs));
    }
    let steps = [
        write::take(&[]),
        write::pin(&[]),
        write::cutoff(),
        write::drop(0),
        write::branch(&[], rng.range(-1, 1)),
        write::drop(1),
    ];
    let mut run = Run::open(spec.bytes());
    for _ in 0..1 + rng.below(9) {
        let record = &steps[rng.below(steps.len())];
        if run.step(record).is_err() && rng.chance(1, 4) {
            run.force(record);
            break;
        }
    }
    run.end()
}
