//! Files and outcomes as the documents give them.

use second_checker::check::check;
use second_checker::job::read_job;
use second_checker::list::list;

fn hex(text: &str) -> Vec<u8> {
    text.split_whitespace().map(|b| u8::from_str_radix(b, 16).unwrap()).collect()
}

fn the_job() -> Vec<u8> {
    hex("4F 56 01 00 00 00 56 01 00 00 00
         52 47 01 00 01 00 00 00 00 00 00 00 00 00 00 00
         52 47 02 00 01 00 00 00 00 00 00 00 00 00 00 00
         57 00 03 00 00 00 57 01 02 00 00 00 45")
}

fn the_trace() -> Vec<u8> {
    hex("54 01 00 02 00 00 00 4B
         43 02 02 00 01 00 00 00 02 00 01 00 00 00
         49 00 01 01 03 00
         43 02 02 00 01 00 04 00 01 00 02 00 00 00
         43 02 01 00 01 00 05 00 01 00 01 00 00 00
         44 06 00 45")
}

fn printed(job: &[u8], trace: &[u8]) -> String {
    check(job, trace).to_string()
}

#[test]
fn two_batches() {
    assert_eq!(the_job().len(), 56);
    assert_eq!(the_trace().len(), 60);
    assert_eq!(printed(&the_job(), &the_trace()), "least 2 | plan 2 0");
    let words = "theory one vat\nvariable v0 cost 1\nvariable v1 cost 1\nrow 0: -v0 <= 0\nrow 1: -v1 <= 0\n\
                 batch 0: starts at v0, takes 3\nbatch 1: starts at v1, takes 2\n";
    assert_eq!(list(&read_job(&the_job()).ok().unwrap()), words);
}

#[test]
fn small_jobs() {
    let anything = [b"".to_vec(), b"E".to_vec(), the_trace(), vec![0x58; 70_000]];
    let mut long = b"NE".to_vec();
    long.resize(65_536, 0x11);
    let rows: [(Vec<u8>, &str); 8] = [
        (vec![], "refused 19 1 0 0 0 0"),
        (hex("58"), "refused 20 1 0 0 0 0"),
        (hex("4E"), "refused 19 1 1 1 0 0"),
        (long, "refused 22 1 2 2 0 0"),
        (vec![0x4E; 65_537], "refused 24 1 0 0 0 0"),
        (hex("4E 56 01 00 00 00 52 51 01 00 01 00 00 00 00 00 00 00 00 00 00 00"), "refused 9 1 2 6 0 0"),
        (hex("4E 56 01 00 00 00 52 51 02 00 01 00 00 00 00 00 00 00 00 00 00 00"), "refused 21 1 2 6 0 1"),
        (hex("4E 56 01 00 00 00 52 4C 00 00 00 00 00 00 00 00 00 00 56"), "refused 20 1 3 18 0 0"),
    ];
    for (job, expected) in &rows {
        for trace in &anything {
            assert_eq!(printed(job, trace), *expected);
        }
    }
}

#[test]
fn small_traces_of_the_job() {
    let short = the_trace()[..59].to_vec();
    let mut long = the_trace();
    long.push(0);
    let chain = hex("4C 02 01 00 00 01 00 01 00 00 00 01 03 00 01 00 01 00 00 00");
    let rows: [(Vec<u8>, &str); 10] = [
        (hex("45"), "unfinished"),
        (hex("54 01 00 02 00 00 00 45"), "unfinished | plan 2 0"),
        (vec![], "refused 19 2 0 0 0 0"),
        (short, "refused 19 2 7 59 0 0"),
        (long, "refused 22 2 8 60 0 0"),
        (hex("54 02 00 02 00 00 00"), "refused 14 2 0 0 0 0"),
        (hex("43 C8 00 00"), "refused 19 2 0 0 0 0"),
        (hex("43 00 01 00 00 00"), "refused 2 2 0 0 0 0"),
        (chain[..19].to_vec(), "refused 19 2 0 0 0 0"),
        (chain, "refused 5 2 0 0 2 0"),
    ];
    for (trace, expected) in &rows {
        assert_eq!(printed(&the_job(), trace), *expected);
    }
}

#[test]
fn small_traces_without_variables() {
    let missed = hex("4E 52 4C 00 00 FF FF FF FF FF FF FF FF 45");
    assert_eq!(printed(&missed, &hex("44 00 00 45")), "none");
    let rows = [
        ("54 00 00 50 45", "least 0 | plan"),
        ("49 00", "refused 8 2 0 0 0 0"),
        ("54 00 00 50 3F", "refused 20 2 2 4 0 0"),
        ("54 00 00 50 44", "refused 19 2 2 4 0 0"),
        ("54 00 00 50 4B", "refused 1 2 2 4 0 0"),
    ];
    for (trace, expected) in rows {
        assert_eq!(printed(b"NE", &hex(trace)), expected);
    }
}

#[test]
fn a_branch() {
    let job = hex("4E 56 01 00 00 00
                   52 4C 01 00 01 00 00 00 01 00 00 00 00 00 00 00
                   52 47 01 00 01 00 00 00 00 00 00 00 00 00 00 00 45");
    let trace = hex("42 01 00 01 00 00 00 00 00 00 00 00 00 00 00
                     54 00 00 50 02 00 01 00 50 00 00 02 00 45");
    assert_eq!(printed(&job, &trace), "least 0 | plan 0");
}

fn mapped(values: &[i32]) -> Vec<u8> {
    let map = values.iter().enumerate().filter(|(_, &v)| v != 0).fold(0u16, |map, (i, _)| map | 1 << i);
    let mut bytes = map.to_le_bytes().to_vec();
    values.iter().filter(|&&v| v != 0).for_each(|v| bytes.extend(v.to_le_bytes()));
    bytes
}

fn row(letter: u8, coefs: &[i32], rhs: i64) -> Vec<u8> {
    [&[b'R', letter][..], &mapped(coefs), &rhs.to_le_bytes()].concat()
}

fn branch(coefs: &[i32], rhs: i64) -> Vec<u8> {
    [b"B".to_vec(), mapped(coefs), rhs.to_le_bytes().to_vec()].concat()
}

fn cut(premises: &[(u16, u16)], divisor: u32) -> Vec<u8> {
    let mut bytes = vec![b'C', premises.len() as u8];
    for (place, multiplier) in premises {
        bytes.extend(place.to_le_bytes());
        bytes.extend(multiplier.to_le_bytes());
    }
    bytes.extend(divisor.to_le_bytes());
    bytes
}

fn job(costs: &[i32], rest: &[Vec<u8>]) -> Vec<u8> {
    let mut bytes = b"N".to_vec();
    for cost in costs {
        bytes.push(b'V');
        bytes.extend(cost.to_le_bytes());
    }
    bytes.extend(rest.concat());
    bytes.push(b'E');
    bytes
}

fn trace(steps: &[Vec<u8>]) -> Vec<u8> {
    [steps.concat(), b"E".to_vec()].concat()
}

#[test]
fn division_rounds_down() {
    for (rhs, rounded) in [(-2, -1), (-1, -1), (0, 0), (1, 0)] {
        let job = job(&[], &[row(b'L', &[], rhs)]);
        let drop_new = b"D\x01\x00".to_vec();
        let expected = if rounded < 0 { "none" } else { "refused 16 2 1 10 0 0" };
        assert_eq!(printed(&job, &trace(&[cut(&[(0, 1)], 2), drop_new])), expected);
    }
}

#[test]
fn single_rules() {
    let job = job(&[1], &[row(b'L', &[3], 5)]);
    let rows = [
        (cut(&[(0, 1)], 2), "refused 6 2 0 0 0 0"),
        (cut(&[(0, 10_000)], 1), "unfinished"),
        (cut(&[(0, 0)], 1), "refused 3 2 0 0 0 0"),
        (cut(&[(0, 10_001)], 1), "refused 3 2 0 0 0 0"),
        (cut(&[(0, 1), (0, 1)], 0), "refused 3 2 0 0 0 2"),
        (branch(&[1], 19_999_999_999_999), "unfinished"),
        (branch(&[1], 20_000_000_000_000), "refused 3 2 0 0 0 1"),
        (branch(&[1], -20_000_000_000_000), "unfinished"),
        (branch(&[1], -20_000_000_000_001), "refused 3 2 0 0 0 1"),
        (branch(&[1], i64::MIN), "refused 3 2 0 0 0 1"),
        (branch(&[1_000_000], 0), "unfinished"),
        (branch(&[-1_000_001], 0), "refused 3 2 0 0 0 0"),
        (branch(&[i32::MIN], 0), "refused 3 2 0 0 0 0"),
    ];
    for (step, expected) in rows {
        assert_eq!(printed(&job, &trace(&[step])), expected);
    }
}

#[test]
fn job_limits() {
    assert_eq!(printed(&job(&[1; 16], &[]), b"E"), "unfinished");
    assert_eq!(printed(&job(&[1; 17], &[]), b"E"), "refused 4 1 17 81 0 0");
    assert_eq!(printed(&job(&[1_000_001], &[]), b"E"), "refused 3 1 1 1 0 0");
    let mut rows = vec![row(b'L', &[], 0); 62];
    rows.push(row(b'E', &[], 0));
    assert_eq!(printed(&job(&[], &rows), b"E"), "unfinished");
    rows.push(row(b'G', &[], 0));
    assert_eq!(printed(&job(&[], &rows), b"E"), "refused 4 1 64 757 0 0");
    rows.truncate(62);
    rows.extend([row(b'L', &[], 0), row(b'E', &[], 0)]);
    assert_eq!(printed(&job(&[], &rows), b"E"), "refused 4 1 64 757 0 0");
    let wide = [row(b'L', &[], 20_000_000_000_000), row(b'G', &[], -20_000_000_000_000)];
    assert_eq!(printed(&job(&[], &wide), b"E"), "unfinished");
    let too_wide = [row(b'Q', &[0, 0], 20_000_000_000_001)];
    assert_eq!(printed(&job(&[0, 0], &too_wide), b"E"), "refused 3 1 3 11 0 2");
}

#[test]
fn table_limits() {
    let job = job(&[], &[row(b'L', &[], -1)]);
    let mut steps = vec![cut(&[(0, 1)], 1); 511];
    assert_eq!(printed(&job, &trace(&steps)), "unfinished");
    steps.push(cut(&[(0, 1)], 1));
    assert_eq!(printed(&job, &trace(&steps)), "refused 4 2 511 5110 0 0");
    for (premises, expected) in [(32, "unfinished"), (33, "refused 2 2 0 0 0 0")] {
        assert_eq!(printed(&job, &trace(&[cut(&vec![(0, 1); premises], 1)])), expected);
    }
    let body = &cut(&[(0, 1)], 1)[1..];
    let chain = |lines: u8| [vec![b'L', lines], body.repeat(usize::from(lines))].concat();
    steps.truncate(503);
    assert_eq!(printed(&job, &trace(&[steps.concat(), chain(8), chain(7)])), "unfinished");
    assert_eq!(printed(&job, &trace(&[steps.concat(), chain(8), chain(8)])), "refused 4 2 504 5104 0 0");
    assert_eq!(printed(&job, &trace(&[chain(9)])), "refused 2 2 0 0 0 0");
}

#[test]
fn a_full_pile_is_shut_one_by_one() {
    let job = job(&[], &[row(b'L', &[], -1)]);
    let drop_first = b"D\x00\x00".to_vec();
    for depth in [19, 64, 211, 302, 511] {
        let branches = vec![branch(&[], 7); depth];
        let steps = [branches.concat(), drop_first.repeat(depth)];
        assert_eq!(printed(&job, &trace(&steps)), "unfinished");
        assert_eq!(printed(&job, &trace(&[steps.concat(), drop_first.clone()])), "none");
    }
}

#[test]
fn infer_of_shared_results() {
    let head = job(&[0; 4], &[row(b'L', &[1, 0, -1, 0], 0), row(b'L', &[-1, 0, 1, 0], 0)]);
    let calls = b"F\x07\x00\x10\x01F\x07\x02\x10\x03E";
    let job = [b"S", &head[1..head.len() - 1], calls].concat();
    let infer = |clue: [u8; 2], places: &[u16]| {
        let mut bytes = vec![b'I', clue[0], clue[1], places.len() as u8];
        places.iter().for_each(|p| bytes.extend(p.to_le_bytes()));
        bytes.push(b'E');
        bytes
    };
    assert_eq!(printed(&job, &infer([0, 1], &[0, 1, 9999, 65_535])), "unfinished");
    assert_eq!(printed(&job, &infer([0, 1], &[1, 0, 0, 0])), "refused 11 2 0 0 0 0");
    assert_eq!(printed(&job, &infer([0, 1], &[0, 2, 0, 0])), "refused 5 2 0 0 0 1");
    assert_eq!(printed(&job, &infer([0, 1], &[0, 1, 0])), "refused 2 2 0 0 0 0");
    assert_eq!(printed(&job, &infer([1, 1], &[9, 9, 9, 9])), "unfinished");
    assert_eq!(printed(&job, &infer([0, 2], &[])), "refused 8 2 0 0 0 0");
}

#[test]
fn starts_of_one_vat() {
    let take = |values: [i32; 2]| [b"T".to_vec(), mapped(&values), b"E".to_vec()].concat();
    assert_eq!(printed(&the_job(), &take([0, 3])), "unfinished | plan 0 3");
    assert_eq!(printed(&the_job(), &take([2, 0])), "unfinished | plan 2 0");
    assert_eq!(printed(&the_job(), &take([0, 2])), "refused 14 2 0 0 0 0");
    assert_eq!(printed(&the_job(), &take([-1, 2])), "refused 13 2 0 0 0 0");
    assert_eq!(printed(&the_job(), &take([0, 1_000_001])), "refused 3 2 0 0 0 1");
}

#[test]
fn jobs_in_words() {
    let head = job(&[3, 0, -1], &[row(b'L', &[2, 0, -3], 7), row(b'E', &[0, 0, 0], 0)]);
    let calls = b"F\x07\x00\x01\x02F\x00\x00\x10\x03E";
    let shared = [b"S", &head[1..head.len() - 1], calls].concat();
    let words = "theory shared results\nvariable v0 cost 3\nvariable v1 cost 0\nvariable v2 cost -1\n\
                 row 0: 2 v0 - 3 v2 <= 7\nrow 1: 0 <= 0\nrow 2: 0 <= 0\n\
                 call 0: f7(v0, v1) = v2\ncall 1: f0(v0) = 0\n";
    assert_eq!(list(&read_job(&shared).ok().unwrap()), words);
    assert_eq!(list(&read_job(b"NE").ok().unwrap()), "theory bare\n");
    assert_eq!(read_job(b"N").err().unwrap().to_string(), "refused 19 1 1 1 0 0");
}
