// Times readings of case files on the same files, in turn, and compares what they list.

mod inputs;

use crate::compare::Reading;
use inputs::File;
use std::fs;
use std::path::{Path, PathBuf};
use std::process::{Command, Stdio};
use std::time::{Duration, Instant};

/// All files are gone through so many times, so that what disturbs the machine for a second disturbs one of them only.
const SWEEPS: usize = 4;
/// How many rounds a file has in a sweep, and how long they may take where there are more than the least.
const ROUNDS_LEAST: usize = 10;
const ROUNDS_MOST: usize = 100;
const TIME_OF_ROUNDS: Duration = Duration::from_millis(150);
/// What takes longer than so many seconds is timed in two rounds in all.
const SLOW: f64 = 0.2;
const SLOW_ROUNDS: usize = 2;
/// The first reading is marked where it takes longer than the second by more than this factor.
const FACTOR_MOST: f64 = 1.2;
/// In seconds, for a whole program on a file of any length.
const PROGRAM_MOST: f64 = 0.010;

/// Something to be timed: a reading, or a program that lists a file.
struct Lister<'a> {
    name: &'static str,
    list: List<'a>,
}

/// The listing of a file, which is given with its place among the files.
type List<'a> = Box<dyn Fn(usize, &File) -> Vec<u8> + 'a>;

/// The best time of each lister on a file, in seconds, in how many rounds, and whether all its listings were alike.
struct Times {
    best: Vec<f64>,
    rounds: Vec<usize>,
    alike: bool,
}

impl Times {
    fn new(listers: usize) -> Times {
        Times { best: vec![f64::MAX; listers], rounds: vec![0; listers], alike: true }
    }
}

/// Prints how long each reading takes on each file, and what each record costs.
/// The first reading is the checker's, and the second is the one that it is held against. False if two listings of a file differ.
pub fn measure(readings: &[Reading]) -> bool {
    let call = |reading: &Reading| {
        let listing = reading.listing;
        Lister { name: reading.name, list: Box::new(move |_, file| listing(&file.bytes)) }
    };
    let listers: Vec<Lister> = readings.iter().map(call).collect();
    let alike = in_memory(&listers);
    let programs_alike = match std::env::var_os("KELOMBARY_PROGRAM") {
        Some(program) => programs(Path::new(&program), readings),
        None => {
            println!("\nKELOMBARY_PROGRAM is not set: whole programs are left out.");
            true
        }
    };
    alike & programs_alike & growth(&listers)
}

// Files.

fn in_memory(listers: &[Lister]) -> bool {
    println!("Best of several rounds, in milliseconds, from bytes in memory to a listing in memory:\n");
    let files = vec![
        inputs::example("kit.case"),
        inputs::forms("1,024 forms", 1_024),
        inputs::chain("512 taut lines, 12 prime parts, 1,000 entries in a chain", 12, 1_000, 512),
        inputs::shared("512 taut lines, 12 prime parts, 1,000 entries shared at random", 12, 1_000, 512),
        inputs::refutations("64 refutations, 256 positions, 1,024 formulas, 12 pulses each", 1_024, 12, 256, 64),
        inputs::refutations("64 refutations, 256 positions, 372 formulas, 24 pulses each", 372, 24, 256, 64),
        inputs::full("16,384 bytes, all lists full"),
    ];
    let times = timed(&files, listers);
    print_head("file", listers, true);
    for (file, times) in files.iter().zip(&times) {
        print_times(&file.name, &times.best, slower_mark(&times.best));
    }
    times.iter().all(|times| times.alike)
}

/// Whole programs, with their start: kelombary, and this program asked for the listing of each other reading.
fn programs(kelombary: &Path, readings: &[Reading]) -> bool {
    println!("\nWhole programs with their start, from a file to a pipe, in milliseconds:\n");
    let files = vec![
        inputs::example("kit.case"),
        inputs::full("16,384 bytes, all lists full"),
        inputs::chain("512 taut lines, in a chain, as above", 12, 1_000, 512),
        inputs::shared("512 taut lines, shared at random, as above", 12, 1_000, 512),
    ];
    let folder = std::env::temp_dir().join(format!("kelombary-measure-{}", std::process::id()));
    let paths = written(&folder, &files);
    let this = std::env::current_exe().expect("the path of this program");
    let start = |(place, reading): (usize, &Reading)| program(place, reading.name, kelombary, &this, &paths);
    let listers: Vec<Lister> = readings.iter().enumerate().map(start).collect();
    let times = timed(&files, &listers);
    fs::remove_dir_all(&folder).expect("the folder taken away");
    print_head("file", &listers, true);
    for (file, times) in files.iter().zip(&times) {
        let mark = if times.best[0] < PROGRAM_MOST { "below 10 ms" } else { "not below 10 ms" };
        print_times(&file.name, &times.best, format!("{mark} {}", slower_mark(&times.best)));
    }
    times.iter().all(|times| times.alike)
}

/// The paths of files that are written into a folder.
fn written(folder: &Path, files: &[File]) -> Vec<PathBuf> {
    fs::create_dir_all(folder).expect("a folder for files");
    let write = |(place, file): (usize, &File)| {
        let path = folder.join(format!("{place}.case"));
        fs::write(&path, &file.bytes).expect("a file to read");
        path
    };
    files.iter().enumerate().map(write).collect()
}

fn program<'a>(place: usize, name: &'static str, kelombary: &'a Path, this: &'a Path, paths: &'a [PathBuf]) -> Lister<'a> {
    let list: List = match place {
        0 => Box::new(|file, _| output(kelombary, &[], &paths[file])),
        _ => Box::new(move |file, _| output(this, &["list", name], &paths[file])),
    };
    Lister { name, list }
}

fn output(program: &Path, arguments: &[&str], path: &Path) -> Vec<u8> {
    let input = fs::File::open(path).expect("the file that was written");
    let output = Command::new(program).args(arguments).stdin(input).stderr(Stdio::inherit()).output();
    let output = output.unwrap_or_else(|error| panic!("{}: {error}", program.display()));
    assert!(output.status.success(), "{}: {}", program.display(), output.status);
    output.stdout
}

// Records.

/// What one record costs, by how full the lists are: a file with such records, one without, and their number.
fn growth(listers: &[Lister]) -> bool {
    println!("\nWhat one record costs, in microseconds: the difference of a file with such records and one without, by their number:\n");
    let mut costs: Vec<(u16, [File; 2])> = Vec::new();
    for forms in [256, 512, 1_024] {
        let name = format!("a form of {forms}");
        costs.push((forms, [forms, 0].map(|forms| inputs::forms(&name, forms))));
    }
    for (parts, entries) in pairs(&[8, 9, 10, 11, 12], &[250, 500, 1_000]) {
        let name = format!("a taut line, {parts} prime parts, {entries} entries");
        costs.push((64, [64, 0].map(|lines| inputs::shared(&name, parts, entries, lines))));
    }
    for (positions, formulas) in pairs(&[64, 128, 256], &[256, 512, 1_024]) {
        let name = format!("a refutation, {positions} positions, {formulas} formulas");
        costs.push((64, [64, 0].map(|refutations| inputs::refutations(&name, formulas, 12, positions, refutations))));
    }
    for lines in [128, 256, 512] {
        let name = format!("a line by mp of {lines}");
        costs.push((lines - 2, [lines, 2].map(|lines| inputs::by_mp(&name, lines))));
    }
    let (records, files): (Vec<u16>, Vec<[File; 2]>) = costs.into_iter().unzip();
    let files = files.into_iter().flatten().collect::<Vec<_>>();
    let times = timed(&files, listers);
    print_head("record", listers, false);
    for (place, records) in records.iter().enumerate() {
        print_costs(&files[2 * place].name, *records, &times[2 * place].best, &times[2 * place + 1].best);
    }
    times.iter().all(|times| times.alike)
}

fn pairs(firsts: &[u16], seconds: &[u16]) -> Vec<(u16, u16)> {
    firsts.iter().flat_map(|first| seconds.iter().map(|second| (*first, *second))).collect()
}

// Timing.

fn timed(files: &[File], listers: &[Lister]) -> Vec<Times> {
    let mut times: Vec<Times> = files.iter().map(|_| Times::new(listers.len())).collect();
    for _ in 0..SWEEPS {
        sweep(files, listers, &mut times);
    }
    times
}

fn sweep(files: &[File], listers: &[Lister], times: &mut [Times]) {
    for (place, (file, times)) in files.iter().zip(times).enumerate() {
        time_file(place, file, listers, times);
    }
}

/// Times the listers in turn in each round, so that what disturbs one disturbs all. Every record of the file has to be taken.
fn time_file(place: usize, file: &File, listers: &[Lister], times: &mut Times) {
    let expected = (listers[0].list)(place, file);
    assert!(expected.ends_with(format!("\nread {}\n", file.bytes.len()).as_bytes()), "{}: a record is refused", file.name);
    let start = Instant::now();
    for round in 0..ROUNDS_MOST {
        if round >= ROUNDS_LEAST && start.elapsed() > TIME_OF_ROUNDS {
            break;
        }
        time_round(place, file, listers, &expected, times);
    }
}

fn time_round(place: usize, file: &File, listers: &[Lister], expected: &[u8], times: &mut Times) {
    for (number, lister) in listers.iter().enumerate() {
        if times.best[number] > SLOW && times.rounds[number] >= SLOW_ROUNDS {
            continue;
        }
        let start = Instant::now();
        let listing = (lister.list)(place, file);
        times.best[number] = times.best[number].min(start.elapsed().as_secs_f64());
        times.rounds[number] += 1;
        if listing != expected && times.alike {
            println!("DIFFERENT: {} lists another thing than {} of: {}", lister.name, listers[0].name, file.name);
        }
        times.alike &= listing == expected;
    }
}

// Printing.

fn print_head(what: &str, listers: &[Lister], with_ratios: bool) {
    let mut cells: Vec<String> = listers.iter().map(|lister| lister.name.to_string()).collect();
    if with_ratios {
        cells.extend(listers[1..].iter().map(|lister| format!("{} / {}", listers[0].name, lister.name)));
        cells.push("mark".to_string());
    }
    println!("| {what} | {} |", cells.join(" | "));
    println!("|---{}|", "|---".repeat(cells.len()));
}

fn print_times(name: &str, best: &[f64], mark: String) {
    let mut cells: Vec<String> = best.iter().map(|seconds| format!("{:.3}", 1e3 * seconds)).collect();
    cells.extend(best[1..].iter().map(|seconds| format!("{:.3}", best[0] / seconds)));
    println!("| {name} | {} | {} |", cells.join(" | "), mark.trim());
}

fn print_costs(name: &str, records: u16, with: &[f64], without: &[f64]) {
    let costs = with.iter().zip(without).map(|(with, without)| 1e6 * (with - without) / f64::from(records));
    println!("| {name} | {} |", costs.map(|cost| format!("{cost:.3}")).collect::<Vec<_>>().join(" | "));
}

fn slower_mark(best: &[f64]) -> String {
    if best[0] > FACTOR_MOST * best[1] { format!("above {FACTOR_MOST}") } else { String::new() }
}
