//! Checks job.bct and trace.bct in the current directory, or all pairs of a pack file.

use std::fs::File;
use std::io::{self, ErrorKind, Read, Write};
use std::process::ExitCode;

use second_checker::check::check;
use second_checker::job::read_job;
use second_checker::limits::FILE_BYTES;
use second_checker::list::list;
use second_checker::pack;
use second_checker::tally::Tally;

fn main() -> ExitCode {
    let arguments: Vec<String> = std::env::args_os().skip(1).map(|a| a.to_string_lossy().into()).collect();
    let arguments: Vec<&str> = arguments.iter().map(String::as_str).collect();
    let text = match arguments[..] {
        [] => check_here(),
        ["list"] => list_here(),
        ["pairs", file] => outcomes(file),
        ["refusals", file] => tally(file).map(|tally| tally.table()),
        ["letters", file] => tally(file).map(|tally| tally.letter_table()),
        _ => Err("use: second [list | pairs FILE | refusals FILE | letters FILE]".into()),
    };
    let printed = text.and_then(|text| io::stdout().write_all(text.as_bytes()).map_err(|e| e.to_string()));
    match printed {
        Ok(()) => ExitCode::SUCCESS,
        Err(message) => {
            eprintln!("{message}");
            ExitCode::FAILURE
        }
    }
}

/// One byte more than the longest file allowed; nothing where there is no file.
fn read_here(name: &str) -> Result<Vec<u8>, String> {
    let mut bytes = Vec::new();
    let file = match File::open(name) {
        Err(error) if error.kind() == ErrorKind::NotFound => return Ok(bytes),
        other => other,
    };
    let most = FILE_BYTES as u64 + 1;
    let read = file.and_then(|file| file.take(most).read_to_end(&mut bytes));
    read.map_err(|error| format!("{name}: {error}"))?;
    Ok(bytes)
}

fn check_here() -> Result<String, String> {
    let (job, trace) = (read_here("job.bct")?, read_here("trace.bct")?);
    let (first, second) = check(&job, &trace).lines();
    let second = second.map_or(String::new(), |line| line + "\n");
    Ok(format!("{first}\n{second}"))
}

fn list_here() -> Result<String, String> {
    Ok(match read_job(&read_here("job.bct")?) {
        Ok(job) => list(&job),
        Err(refusal) => format!("{refusal}\n"),
    })
}

fn read_pack(name: &str) -> Result<Vec<u8>, String> {
    std::fs::read(name).map_err(|error| format!("{name}: {error}"))
}

fn outcomes(name: &str) -> Result<String, String> {
    let pack = read_pack(name)?;
    let pairs = pack::pairs(&pack)?;
    Ok(pairs.iter().map(|(job, trace)| format!("{}\n", check(job, trace))).collect())
}

fn tally(name: &str) -> Result<Tally, String> {
    let pack = read_pack(name)?;
    Ok(Tally::of(&pack::pairs(&pack)?))
}
