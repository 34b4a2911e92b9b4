// Compares the checker with two readings of docs/ in Rust that share no code with it, and measures all three.

mod checker;
mod compare;
mod generate;
mod measure;
mod plain;
mod random;
mod records;
mod words;

use compare::Reading;
use std::env;
use std::io::{self, Read, Write};
use std::process::ExitCode;

const USAGE: &str = "\
usage: bench                          compares the readings of case files, then measures them
       bench compare [FILES [SEED]]   compares what they list of so many generated files
       bench measure                  measures how long they take
       bench list NAME                lists the case file on standard input by one of them: checker, words or plain";

/// What the checker is compared with and measured against stands behind it; the second is what its time is held against.
const READINGS: [Reading; 3] = [
    Reading { name: "checker", listing: checker::listing },
    Reading { name: "words", listing: words::listing },
    Reading { name: "plain", listing: plain::listing },
];

/// As many files are compared, and from this seed on, where the arguments don't say.
const FILES: usize = 40_000;
const SEED: u64 = 1;

/// A case file has at most one byte less: of a longer input so many are enough.
const INPUT_MOST: u64 = 16_385;

fn main() -> ExitCode {
    let arguments: Vec<String> = env::args_os().skip(1).map(|argument| argument.to_string_lossy().into_owned()).collect();
    let words: Vec<&str> = arguments.iter().map(String::as_str).collect();
    match asked(&words) {
        Some(true) => ExitCode::SUCCESS,
        Some(false) => ExitCode::FAILURE,
        None => {
            eprintln!("{USAGE}");
            ExitCode::from(2)
        }
    }
}

/// Does what the arguments ask for, and answers whether all is well; none where they can't be understood.
fn asked(words: &[&str]) -> Option<bool> {
    match *words {
        [] => Some(compare(FILES, SEED) && measure::measure(&READINGS)),
        ["compare"] => Some(compare(FILES, SEED)),
        ["compare", files] => Some(compare(files.parse().ok()?, SEED)),
        ["compare", files, seed] => Some(compare(files.parse().ok()?, seed.parse().ok()?)),
        ["measure"] => Some(measure::measure(&READINGS)),
        ["list", name] => Some(list(READINGS.iter().find(|reading| reading.name == name)?)),
        _ => None,
    }
}

fn compare(files: usize, seed: u64) -> bool {
    println!("Generated files, {files} of them from seed {seed} on, listed by each reading:\n");
    let alike = compare::compare(&READINGS, files, seed);
    println!();
    alike
}

fn list(reading: &Reading) -> bool {
    let listed = listed(reading);
    if let Err(error) = &listed {
        eprintln!("bench: {error}");
    }
    listed.is_ok()
}

/// Lists standard input on standard output.
fn listed(reading: &Reading) -> io::Result<()> {
    let mut file = Vec::new();
    io::stdin().lock().take(INPUT_MOST).read_to_end(&mut file)?;
    io::stdout().write_all(&(reading.listing)(&file))
}
