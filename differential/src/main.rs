//! Compares libpeerivolt.a with rtcm-rs 0.11.0, which is built from its own source.
mod area;
mod bench;
mod blocks;
mod compare;
mod differences;
mod pv;
mod random;
mod record;
mod recordings;
mod rust;
mod streams;

use std::env;
use std::path::PathBuf;
use std::process::ExitCode;

const USAGE: &str = "\
differential compare [SEED [PART]]
                                 compares over the whole domain, or one part of it (checksum, frames, framing, scans,
                                 fields, 1059, 1230, tables, metres); prints counts and the smallest differing input
differential differences [PAGE]  runs each entry of the page, docs/DIFFERENCES.md, and compares it with the page
differential record FILE         writes a fixed list of the Rust's answers
differential bench               times the Rust, in nanoseconds a call";

/// The seed of a run that names none, and of the recorded answers.
const SEED: u64 = 1;

fn main() -> ExitCode {
    rust::silence_panics();
    let arguments: Vec<String> = env::args().skip(1).collect();
    let arguments: Vec<&str> = arguments.iter().map(String::as_str).collect();
    let is_well = match arguments[..] {
        ["compare"] => compare::run(SEED, None, &recordings()),
        ["compare", seed] => match seed.parse() {
            Ok(seed) => compare::run(seed, None, &recordings()),
            Err(_) => return usage(),
        },
        ["compare", seed, part] if compare::PARTS.contains(&part) => match seed.parse() {
            Ok(seed) => compare::run(seed, Some(part), &recordings()),
            Err(_) => return usage(),
        },
        ["differences"] => differences::run(&beside("docs/DIFFERENCES.md")),
        ["differences", page] => differences::run(&PathBuf::from(page)),
        ["record", file] => match record::run(&PathBuf::from(file), SEED) {
            Ok(()) => true,
            Err(why) => {
                println!("{file}: {why}");
                false
            }
        },
        ["bench"] => {
            bench::run();
            true
        }
        _ => return usage(),
    };
    if is_well {
        ExitCode::SUCCESS
    } else {
        ExitCode::FAILURE
    }
}

fn usage() -> ExitCode {
    eprintln!("{USAGE}");
    ExitCode::from(2)
}

/// A path from the root of the repository, where this program was built.
fn beside(path: &str) -> PathBuf {
    PathBuf::from(env!("CARGO_MANIFEST_DIR"))
        .join("..")
        .join(path)
}

fn recordings() -> Vec<recordings::Recording> {
    recordings::Recording::all(&beside(""))
}
