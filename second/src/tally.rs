//! How often each outcome occurs over a pack.

use std::collections::BTreeMap;

use crate::check::{check, Outcome, Verdict};
use crate::fault::{File, Refusal};
use crate::pack::Parts;

#[derive(Default)]
pub struct Tally {
    pub refused: [usize; 25],
    pub least: usize,
    pub none: usize,
    pub unfinished: usize,
    /// By number, file and letter of the record; no letter where the file has ended.
    pub letters: BTreeMap<(u8, u8, Option<char>), usize>,
}

impl Tally {
    pub fn of(pairs: &[Parts]) -> Tally {
        let mut tally = Tally::default();
        for (job, trace) in pairs {
            match check(job, trace) {
                Outcome::Refused(refusal) => tally.count(&refusal, job, trace),
                Outcome::Closed { verdict: Verdict::Least(_), .. } => tally.least += 1,
                Outcome::Closed { verdict: Verdict::None, .. } => tally.none += 1,
                Outcome::Closed { verdict: Verdict::Unfinished(_), .. } => tally.unfinished += 1,
            }
        }
        tally
    }

    fn count(&mut self, refusal: &Refusal, job: &[u8], trace: &[u8]) {
        let number = refusal.fault.number();
        self.refused[usize::from(number)] += 1;
        let file = if refusal.file == File::Job { job } else { trace };
        let letter = file.get(refusal.byte).map(|&b| if b.is_ascii_graphic() { char::from(b) } else { '.' });
        *self.letters.entry((number, refusal.file as u8, letter)).or_default() += 1;
    }

    pub fn table(&self) -> String {
        let mut lines: Vec<(String, usize)> =
            (1..=24).map(|number| (format!("refused {number}"), self.refused[number])).collect();
        lines.push(("least".into(), self.least));
        lines.push(("none".into(), self.none));
        lines.push(("unfinished".into(), self.unfinished));
        lines.iter().map(|(name, count)| format!("{name:<12}{count:>8}\n")).collect()
    }

    pub fn letter_table(&self) -> String {
        let mut out = String::new();
        for (&(number, file, letter), count) in &self.letters {
            let letter = letter.map_or("end of file".into(), |c| format!("'{c}'"));
            out.push_str(&format!("refused {number:<3} file {file} at {letter:<12}{count:>8}\n"));
        }
        out
    }
}
