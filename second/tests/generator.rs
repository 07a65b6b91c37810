//! What the generator promises of its pairs.

use second_checker::check::check;
use second_checker::generator::closed::{closed, points};
use second_checker::generator::jobs::Boxed;
use second_checker::generator::rng::Rng;
use second_checker::generator::{kind, pair, Kind};
use second_checker::pack::Pair;
use second_checker::tally::Tally;

fn value(point: &[i32], place: u8) -> i64 {
    point.get(usize::from(place)).map_or(0, |&v| i64::from(v))
}

fn dot(coefs: &[i32], point: &[i32]) -> i64 {
    coefs.iter().zip(point).map(|(&c, &v)| i64::from(c) * i64::from(v)).sum()
}

fn is_model(job: &Boxed, point: &[i32]) -> bool {
    let rows = job.spec.rows.iter().all(|(letter, coefs, rhs)| match letter {
        b'L' => dot(coefs, point) <= *rhs,
        b'G' => dot(coefs, point) >= *rhs,
        _ => dot(coefs, point) == *rhs,
    });
    let at = |place| value(point, place);
    let calls = &job.spec.calls;
    let shared = calls.iter().all(|a| {
        let same = |b: &&[u8; 4]| a[0] == b[0] && at(a[1]) == at(b[1]) && at(a[2]) == at(b[2]);
        calls.iter().filter(same).all(|b| at(a[3]) == at(b[3]))
    });
    let batches = &job.spec.batches;
    let clear = (0..batches.len()).all(|i| {
        (0..i).all(|j| {
            let ((a, la), (b, lb)) = (batches[i], batches[j]);
            at(a) + i64::from(la) <= at(b) || at(b) + i64::from(lb) <= at(a)
        })
    });
    rows && shared && clear
}

#[test]
fn closed_derivations_say_the_truth() {
    for index in 0..2_000 {
        let (job, run) = closed(&mut Rng::new(5, index));
        let pair = run.end();
        let models = points(&job).into_iter().filter(|p| is_model(&job, p));
        let best = models.map(|p| dot(&job.spec.costs, &p)).min();
        let expected = best.map_or("none".to_string(), |cost| format!("least {cost}"));
        assert_eq!(check(&pair.job, &pair.trace).lines().0, expected, "index {index}");
    }
}

fn tally(seed: u64, count: usize) -> Tally {
    let pairs: Vec<Pair> = (0..count).map(|index| pair(seed, index)).collect();
    let parts: Vec<(&[u8], &[u8])> = pairs.iter().map(|p| (&p.job[..], &p.trace[..])).collect();
    Tally::of(&parts)
}

#[test]
fn every_number_is_reached_in_3000_pairs() {
    for seed in 1..=5 {
        let tally = tally(seed, 3_000);
        for number in (1..=24).filter(|&number| number != 23) {
            assert!(tally.refused[number] >= 10, "seed {seed}, refusal {number}");
        }
        assert_eq!(tally.refused[23], 0);
        assert!(tally.least.min(tally.none).min(tally.unfinished) >= 10);
    }
}

/// The table of REFUSALS.md, column `from files`: each number with each record that can bring it.
#[test]
fn every_number_is_reached_from_every_record() {
    let wanted = [
        (1, "", "BCLIKTDP"),
        (2, "", "CLI"),
        (3, "VRFW", "BCLT"),
        (4, "VRFW", "BCLIK"),
        (5, "", "CLIDP"),
        (6, "", "CL"),
        (7, "", "CL"),
        (8, "", "I"),
        (9, "R", ""),
        (10, "", "I"),
        (11, "", "I"),
        (12, "", "K"),
        (13, "", "T"),
        (14, "", "T"),
        (15, "", "T"),
        (16, "", "D"),
        (17, "", "P"),
        (18, "", "P"),
        (19, "VRFW", "BCLITDP"),
        (21, "R", "BT"),
    ];
    let tally = tally(11, 20_000);
    for (number, job, trace) in wanted {
        for (file, letters) in [(1, job), (2, trace)] {
            for letter in letters.chars() {
                let count = tally.letters.get(&(number, file, Some(letter)));
                assert!(count.is_some(), "refusal {number} at {letter} of file {file}");
            }
        }
    }
    for file in [1, 2] {
        assert!(tally.letters.contains_key(&(19, file, None)));
    }
}

#[test]
fn kinds_end_as_they_should() {
    for index in 0..2_000 {
        let pair = pair(9, index);
        let first = check(&pair.job, &pair.trace).lines().0;
        match kind(index) {
            Kind::Closed => assert!(first == "none" || first.starts_with("least"), "{index}: {first}"),
            Kind::Early => assert_eq!(first, "unfinished", "{index}"),
            Kind::Late => assert!(first.starts_with("refused"), "{index}: {first}"),
            _ => {}
        }
    }
}

/// Checks that the pairs of a seed never change: FNV-1a over the first 240 pairs of seed 1.
#[test]
fn a_seed_is_the_same_everywhere() {
    let mut pack = Vec::new();
    (0..240).for_each(|index| pair(1, index).append_to(&mut pack));
    let step = |hash: u64, byte: &u8| (hash ^ u64::from(*byte)).wrapping_mul(0x0000_0100_0000_01B3);
    let hash = pack.iter().fold(0xCBF2_9CE4_8422_2325, step);
    assert_eq!(hash, 15454271388612548274);
}
