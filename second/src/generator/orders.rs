//! Records with several faults at once, so that the order of the checks shows; and rules at their brim.

use super::edges::Scenario;
use super::jobs::JobSpec;
use super::rng::Rng;
use super::run::Run;
use super::write::{self, Line, Premise};
use crate::pack::Pair;

pub const SCENARIOS: [Scenario; 18] = [
    trace_orders,
    job_orders,
    trace_orders,
    rule_brim,
    trace_orders,
    pin_brim,
    trace_orders,
    job_orders,
    trace_orders,
    drop_brim,
    torn_map,
    job_orders,
    rule_brim,
    trace_orders,
    pin_brim,
    rule_brim,
    job_orders,
    phases,
];

const FAR: [i32; 4] = [1_000_001, -1_000_001, i32::MIN, i32::MAX];
const RIGHTS: [i64; 7] = [
    20_000_000_000_000,
    20_000_000_000_001,
    19_999_999_999_999,
    -20_000_000_000_000,
    -20_000_000_000_001,
    i64::MIN,
    i64::MAX,
];

/// Rows of all sorts over two variables; place 0 is good for a drop.
fn assorted(rng: &mut Rng) -> JobSpec {
    let mut spec = JobSpec::new(rng.pick(b"NSSOO"), &[1, -2]);
    spec.rows.push((b'L', vec![0, 0], rng.pick(&[-1, -1, 0])));
    spec.bound(0, 1, 1);
    let value = rng.pick(&[0, 2, 1_000_001]);
    spec.bound(1, value, value);
    spec.rows.push((b'E', vec![1, -1], rng.pick(&[-1, 0, 1])));
    spec.rows.push((b'L', vec![3, 2], 5));
    spec.rows.push((b'L', vec![1_000_000, -999_999], 20_000_000_000_000));
    spec.rows.push((b'L', vec![0, 0], 0));
    let place = |rng: &mut Rng| rng.pick(&[0, 0, 1, 1, 1, 2]);
    for _ in 0..rng.below(4) {
        match spec.theory {
            b'S' => spec.calls.push([rng.below(2) as u8, place(rng), rng.pick(&[0, 1, 16, 16]), place(rng)]),
            b'O' => spec.batches.push((place(rng), rng.pick(&[1, 2, 3]))),
            _ => {}
        }
    }
    spec
}

/// A run that may be full, may have a plan taken, and may have nothing open.
fn prepared(rng: &mut Rng, letter: u8) -> Run {
    let mut run = Run::open(assorted(rng).bytes());
    for values in [[1, 0], [1, 2], [0, 0]] {
        if rng.chance(1, 2) {
            let _ = run.step(&write::take(&values));
        }
    }
    if b"BCLIK".contains(&letter) && rng.chance(1, 2) {
        let goal = rng.pick(&[512, 512, 512, 512, 511, 505]);
        while run.height() < goal {
            let _ = run.step(&write::cut(&[(1, 1)], 1));
        }
    }
    if rng.chance(1, 8) {
        let _ = run.step(&write::drop(0));
    }
    run
}

fn place(rng: &mut Rng, height: usize) -> u16 {
    if rng.chance(1, 5) {
        rng.pick(&[height as u16, height as u16 + 1, 512, 65_535])
    } else {
        rng.below(height.min(11)) as u16
    }
}

/// One of the given places, or any.
fn near(rng: &mut Rng, given: &[u16], height: usize) -> u16 {
    let any = place(rng, height);
    let i = rng.below(given.len() + 1);
    given.get(i).copied().unwrap_or(any)
}

fn body(rng: &mut Rng, height: usize) -> Line {
    let count = rng.pick(&[1, 1, 2, 2, 3, 3, 32, 33, 0]);
    let premise = |rng: &mut Rng| -> Premise {
        let multiplier = if rng.chance(1, 6) { rng.pick(&[0, 10_000, 10_001]) } else { 1 };
        (place(rng, height), multiplier)
    };
    let premises = (0..count).map(|_| premise(rng)).collect();
    (premises, rng.pick(&[1, 1, 1, 2, 0, 1_000_001]))
}

fn list(rng: &mut Rng) -> Vec<(usize, i32)> {
    let mut list = Vec::new();
    for bit in 0..16 {
        let wanted = if bit < 2 { rng.chance(2, 3) } else { rng.chance(1, 40) };
        if wanted {
            let value = if rng.chance(1, 12) { 0 } else { rng.pick(&[1, 2, -1]) };
            list.push((bit, if rng.chance(1, 5) { rng.pick(&FAR) } else { value }));
        }
    }
    list
}

fn step(rng: &mut Rng, run: &Run, letter: u8) -> Vec<u8> {
    let height = run.height();
    match letter {
        b'B' => {
            let rhs = if rng.chance(1, 2) { rng.pick(&RIGHTS) } else { rng.range(-1, 1) };
            write::branch_raw(&list(rng), rhs)
        }
        b'C' => {
            let (premises, divisor) = body(rng, height);
            write::cut(&premises, divisor)
        }
        b'L' => {
            let count = rng.pick(&[0, 1, 2, 3, 7, 8, 9]);
            let lines: Vec<Line> = (0..count).map(|k| body(rng, height + k)).collect();
            write::chain(&lines)
        }
        b'I' => {
            let clue = [rng.below(4) as u8, rng.below(4) as u8];
            let clue = if run.proof.theory().clue_bytes() == 0 { &[] } else { &clue[..] };
            let count = rng.pick(&[0, 1, 1, 1, 4, 4, 4, 5]);
            let places: Vec<u16> = (0..count).map(|_| near(rng, &[5, 6, 5, 6, 65_535], height)).collect();
            write::infer(clue, &places)
        }
        b'K' => write::cutoff(),
        b'T' => write::take_raw(&list(rng)),
        b'D' => write::drop(near(rng, &[0, 9, 10], height)),
        _ => {
            let places = [1, 2, 3, 4].map(|p| if rng.chance(1, 5) { place(rng, height) } else { p });
            write::pin(&places)
        }
    }
}

const LETTERS: &[u8] = b"BBBCCCLLLLIIIIKTTDPP";

pub fn trace_orders(rng: &mut Rng) -> Pair {
    let mut letter = rng.pick(LETTERS);
    let mut run = prepared(rng, letter);
    for _ in 0..1 + rng.below(2) {
        let record = step(rng, &run, letter);
        letter = rng.pick(LETTERS);
        let cut_short = rng.chance(1, 8);
        run.force(if cut_short { &record[..1 + rng.below(record.len())] } else { &record });
    }
    if rng.chance(1, 2) {
        run.end()
    } else {
        run.stop()
    }
}

/// A record of a job with several faults, behind as many records as there may be, or fewer.
pub fn job_orders(rng: &mut Rng) -> Pair {
    let full = rng.chance(3, 4);
    let letter = rng.pick(b"VRRRFFWW");
    let theory = match letter {
        b'F' if rng.chance(5, 6) => b'S',
        b'W' if rng.chance(5, 6) => b'O',
        _ => rng.pick(b"NSO"),
    };
    let n = if letter == b'V' && full { 16 } else { 2 };
    let mut spec = JobSpec::new(theory, &vec![1; n]);
    let many = if full { rng.pick(&[63, 64, 64]) } else { 1 };
    spec.rows = vec![(b'L', vec![1; n], 0); if letter == b'R' { many } else { 0 }];
    let few = if full { 16 } else { rng.below(2) };
    match (letter, theory) {
        (b'F', b'S') => spec.calls = vec![[0, 0, 16, 0]; few],
        (b'W', b'O') => spec.batches = vec![(0, 1); few],
        _ => {}
    }
    let record = job_record(rng, letter);
    let record = if rng.chance(1, 6) { &record[..1 + rng.below(record.len())] } else { &record[..] };
    let mut job = [&[theory][..], &spec.records().concat(), record].concat();
    if rng.chance(2, 3) {
        job.push(b'E');
    }
    Pair { job, trace: b"E".to_vec() }
}

fn job_record(rng: &mut Rng, letter: u8) -> Vec<u8> {
    match letter {
        b'V' => write::variable(rng.pick(&[0, 1_000_000, 1_000_001, -1_000_001])),
        b'R' => {
            let rhs = if rng.chance(1, 3) { rng.pick(&RIGHTS) } else { 4 };
            let list = if rng.chance(1, 2) { vec![(0, 1)] } else { list(rng) };
            write::row_raw(rng.pick(b"LGEQQ"), &list, rhs)
        }
        b'F' => {
            let (first, result) = (rng.pick(&[0, 15, 15, 16]), rng.pick(&[0, 15, 15, 16]));
            write::call([rng.pick(&[0, 255]), first, rng.pick(&[15, 16, 16, 17]), result])
        }
        _ => write::batch(rng.pick(&[0, 15, 15, 16]), rng.pick(&[0, 1, 1_000_000, 1_000_001])),
    }
}

/// A letter at each phase of a job.
pub fn phases(rng: &mut Rng) -> Pair {
    let theory = rng.pick(b"NSO");
    let mut spec = JobSpec::new(theory, &vec![1; rng.below(3)]);
    let n = spec.n();
    spec.rows = vec![(b'L', vec![1; n], 0); rng.below(2)];
    match theory {
        b'S' => spec.calls = vec![[0, 0, 16, 0]; rng.below(2)],
        b'O' => spec.batches = vec![(0, 1); rng.below(2)],
        _ => {}
    }
    let more = [
        b"N".to_vec(),
        b"S".to_vec(),
        write::variable(1),
        write::variable(1),
        write::row(b'L', &vec![1; n], 0),
        write::row(b'L', &vec![1; n], 0),
        write::call([0, 0, 16, 0]),
        write::batch(0, 1),
        b"R".to_vec(),
        b"F".to_vec(),
    ];
    let mut records = spec.records();
    let at = if rng.chance(1, 4) { rng.below(records.len() + 1) } else { records.len() };
    records.insert(at, more[rng.below(more.len())].clone());
    let head = if rng.chance(1, 8) { vec![] } else { vec![theory] };
    Pair { job: [head, records.concat(), b"E".to_vec()].concat(), trace: b"E".to_vec() }
}

/// A rule whose premise just holds or just fails, and whose conclusion just shuts or just does not.
pub fn rule_brim(rng: &mut Rng) -> Pair {
    let shared = rng.chance(1, 2);
    let mut spec = JobSpec::new(if shared { b'S' } else { b'O' }, &[1; 4]);
    let lengths = [1 + rng.below(3) as i64, 1 + rng.below(3) as i64];
    let near = |rng: &mut Rng, k: i64| k + rng.pick(&[-1, 0, 0, 1]);
    let scale = rng.pick(&[1, 1, 1, 1, 1, 1, 2, -1]);
    if shared {
        spec.calls = vec![[4, 0, 16, 1], [4, 2, rng.pick(&[16, 3]), 3]];
        spec.rows.push((b'L', vec![scale, 0, -scale, 0], near(rng, 0)));
        spec.rows.push((b'L', vec![-1, 0, 1, 0], near(rng, 0)));
        spec.rows.push((b'L', vec![0, -1, 0, 1], near(rng, -1)));
        spec.rows.push((b'E', vec![0, 0, 0, 1], 0));
    } else {
        spec.batches = vec![(0, lengths[0] as u32), (1, lengths[1] as u32)];
        spec.rows.push((b'L', vec![-scale, scale, 0, 0], near(rng, lengths[0] - 1)));
        spec.rows.push((b'L', vec![0, 0, 0, 0], 0));
        spec.rows.push((b'L', vec![1, -1, 0, 0], near(rng, lengths[1] - 1)));
    }
    let joined = spec.rows.iter().map(|row| 1 + usize::from(row.0 == b'E')).sum::<usize>() as u16;
    let mut places = if shared { vec![0, 1, 4, 3] } else { vec![0] };
    if rng.chance(1, 2) {
        let i = rng.below(places.len());
        places[i] = rng.pick(&[joined, 65_535]);
    }
    let steps =
        [write::infer(&[0, 1], &places), write::cut(&[(2, 1), (joined, 1)], 1), write::drop(joined + 1), b"E".to_vec()];
    Pair { job: spec.bytes(), trace: steps.concat() }
}

/// A wrong map, in a record that may also be cut short.
pub fn torn_map(rng: &mut Rng) -> Pair {
    let n = 1 + rng.below(3);
    let spec = JobSpec::new(rng.pick(b"NSO"), &vec![1; n]);
    let mut list: Vec<(usize, i32)> = (0..n).map(|i| (i, rng.pick(&[0, 1, 1]))).collect();
    if rng.chance(1, 2) {
        list.push((n + rng.below(16 - n), rng.pick(&[0, 1])));
    }
    let record = match rng.below(3) {
        0 => write::row_raw(rng.pick(b"LQ"), &list, 1),
        1 => write::branch_raw(&list, 1),
        _ => write::take_raw(&list),
    };
    let missing = rng.pick(&[0, 0, 1, 4, 8, 9]).min(record.len() - 1);
    let record = &record[..record.len() - missing];
    let head = [&[spec.theory][..], &spec.records().concat()].concat();
    if record[0] == b'R' {
        return Pair { job: [&head, record].concat(), trace: b"E".to_vec() };
    }
    Pair { job: [&head[..], b"E"].concat(), trace: record.to_vec() }
}

/// Rows that almost fix a point.
pub fn pin_brim(rng: &mut Rng) -> Pair {
    let n = 1 + rng.below(3);
    let mut spec = JobSpec::new(rng.pick(b"NSO"), &vec![rng.pick(&[1, -1, 0]); n]);
    (0..n).for_each(|i| spec.bound(i, 2, 2));
    let odd = rng.below(2 * n);
    let (letter, coefs, rhs) = &mut spec.rows[odd];
    match rng.below(5) {
        0 => *rhs += rng.pick(&[-1, 1]),
        1 => *letter = if *letter == b'L' { b'G' } else { b'L' },
        2 => coefs[rng.below(n)] += rng.pick(&[1, -1]),
        3 if n > 1 => coefs[(odd / 2 + 1) % n] = rng.pick(&[1, -1]),
        _ => {}
    }
    if rng.chance(1, 3) {
        spec.rows.push((b'L', vec![1; n], 2 * n as i64 + rng.pick(&[-1, 0])));
    }
    let mut places: Vec<u16> = (0..2 * n as u16).collect();
    if rng.chance(1, 6) {
        places.swap(rng.below(2 * n), rng.below(2 * n));
    }
    let take = if rng.chance(1, 2) { write::take(&vec![2; n]) } else { vec![] };
    Pair { job: spec.bytes(), trace: [take, write::pin(&places), b"E".to_vec()].concat() }
}

/// Rows without coefficients, or with one, and a drop.
pub fn drop_brim(rng: &mut Rng) -> Pair {
    let n = rng.below(17);
    let mut spec = JobSpec::new(rng.pick(b"NSO"), &vec![1; n]);
    let mut coefs = vec![0; n];
    if n > 0 && rng.chance(1, 3) {
        coefs[rng.below(n)] = rng.pick(&[1, -1]);
    }
    spec.rows.push((rng.pick(b"LGE"), coefs, rng.pick(&[-20_000_000_000_000, -1, 0, 1])));
    let place = rng.pick(&[0, 0, 0, 1, 2]);
    Pair { job: spec.bytes(), trace: [write::drop(place), b"E".to_vec()].concat() }
}
