//! Writes pairs of job and trace to a pack file, and unpacks them.

use std::path::Path;
use std::process::ExitCode;

use second_checker::generator;
use second_checker::pack;

const USE: &str = "use: generate SEED COUNT FILE, or generate unpack FILE INDEX FOLDER, or generate long KIND FOLDER";

fn main() -> ExitCode {
    let arguments: Vec<String> = std::env::args().skip(1).collect();
    let arguments: Vec<&str> = arguments.iter().map(String::as_str).collect();
    let done = match arguments[..] {
        ["unpack", file, index, folder] => unpack(file, index, folder),
        ["long", kind, folder] => long(kind, folder),
        [seed, count, file] => generate(seed, count, file),
        _ => Err(USE.into()),
    };
    match done {
        Ok(()) => ExitCode::SUCCESS,
        Err(message) => {
            eprintln!("{message}");
            ExitCode::FAILURE
        }
    }
}

fn generate(seed: &str, count: &str, file: &str) -> Result<(), String> {
    let seed: u64 = seed.parse().map_err(|_| USE)?;
    let count: usize = count.parse().map_err(|_| USE)?;
    let mut bytes = Vec::new();
    for index in 0..count {
        generator::pair(seed, index).append_to(&mut bytes);
    }
    std::fs::write(file, bytes).map_err(|error| format!("{file}: {error}"))
}

fn unpack(file: &str, index: &str, folder: &str) -> Result<(), String> {
    let index: usize = index.parse().map_err(|_| USE)?;
    let bytes = std::fs::read(file).map_err(|error| format!("{file}: {error}"))?;
    let pairs = pack::pairs(&bytes)?;
    let (job, trace) = pairs.get(index).ok_or(format!("{file} has {} pairs", pairs.len()))?;
    lay_down(folder, job, trace)
}

fn long(kind: &str, folder: &str) -> Result<(), String> {
    let (_, make) = generator::long::KINDS.iter().find(|(name, _)| *name == kind).ok_or(USE)?;
    let pair = make();
    lay_down(folder, &pair.job, &pair.trace)
}

fn lay_down(folder: &str, job: &[u8], trace: &[u8]) -> Result<(), String> {
    let folder = Path::new(folder);
    let write = |name: &str, data: &[u8]| std::fs::write(folder.join(name), data);
    let made = std::fs::create_dir_all(folder);
    let written = made.and_then(|()| write("job.bct", job)).and_then(|()| write("trace.bct", trace));
    written.map_err(|error| format!("{}: {error}", folder.display()))
}
