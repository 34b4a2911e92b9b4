// Compares readings of case files with one another on generated files, and tallies what came up.

use crate::generate::{file, Kind, KINDS};
use crate::records::{field_at, kind_of, HEAD, LINE, RULES};
use std::collections::BTreeMap;
use std::io;
use std::panic::catch_unwind;
use std::ops::Range;
use std::path::PathBuf;
use std::thread;

/// A function that lists case files, by its name.
#[derive(Clone, Copy)]
pub struct Reading {
    pub name: &'static str,
    pub listing: fn(&[u8]) -> Vec<u8>,
}

const THREADS: usize = 2;
const SHOWN_DIFFERENCES: usize = 3;

/// Every layer and number that a listing of the program can end with.
const REFUSALS: [(usize, usize); 20] = [
    (1, 21), (1, 22), (1, 25),
    (2, 23), (2, 24), (2, 26),
    (3, 1), (3, 2), (3, 3), (3, 4), (3, 5), (3, 6), (3, 7), (3, 8), (3, 9), (3, 10), (3, 11), (3, 13), (3, 14), (3, 15),
];
const NOT_ADMITTED: usize = 8;
const BEYOND_LIMIT: usize = 9;

/// Which kind comes how often among as many files; the costly ones come seldom.
const TURNS: [Kind; 32] = {
    use Kind::*;
    [
        Good, NearlyGood, Misfit, Full, Beyond, Damaged, Misfit, Cut, Good, NearlyGood, Misfit, Full, Beyond, Sharing, Misfit, Noise,
        Good, NearlyGood, Misfit, Full, Beyond, Damaged, Misfit, Cut, Good, NearlyGood, Misfit, Full, Beyond, Good, Misfit, NearlyGood,
    ]
};

/// Lists as many generated files by each reading, and prints tables of what came up.
/// False if a reading differs from the first one, or if a refusal or a rule's verdict never came up.
pub fn compare(readings: &[Reading], files: usize, seed: u64) -> bool {
    let mut tally = Tally::default();
    thread::scope(|scope| {
        let shares = (0..THREADS).map(|share| files * share / THREADS..files * (share + 1) / THREADS);
        let workers: Vec<_> = shares.map(|numbers| scope.spawn(move || compare_some(readings, numbers, seed))).collect();
        for worker in workers {
            tally.add(worker.join().expect("what a reading panics with is caught"));
        }
    });
    tally.print(readings);
    let missing = tally.missing();
    for absent in &missing {
        println!("never came up: {absent}");
    }
    tally.differences.is_empty() && missing.is_empty()
}

/// One thread's share of the files, which are numbered.
fn compare_some(readings: &[Reading], numbers: Range<usize>, seed: u64) -> Tally {
    let mut tally = Tally::default();
    for number in numbers {
        let kind = TURNS[number % TURNS.len()];
        let file_seed = seed.wrapping_mul(1_000_003).wrapping_add(number as u64);
        let bytes = file(kind, file_seed);
        let listings: Vec<Vec<u8>> = readings.iter().map(|reading| listed(reading, &bytes)).collect();
        tally.count(kind, &bytes, &listings[0]);
        if listings.iter().any(|listing| *listing != listings[0]) {
            tally.differences.push(Difference { number, kind, seed: file_seed, bytes, listings });
        }
    }
    tally
}

/// The listing of a file by a reading. One that panics has a text that no other has, so that the file is told and kept.
fn listed(reading: &Reading, bytes: &[u8]) -> Vec<u8> {
    catch_unwind(|| (reading.listing)(bytes)).unwrap_or_else(|_| format!("{} panics\n", reading.name).into_bytes())
}

// ---- What came up ----

#[derive(Default)]
struct Tally {
    kinds: BTreeMap<&'static str, KindTally>,
    refusals: BTreeMap<(usize, usize), usize>,
    rules: BTreeMap<usize, RuleTally>,
    differences: Vec<Difference>,
}

#[derive(Default)]
struct KindTally {
    files: usize,
    bytes: usize,
    read: usize,
    refused: usize,
    too_long: usize,
    lines: usize,
    refutations: usize,
}

#[derive(Default)]
struct RuleTally {
    held: usize,
    not_admitted: usize,
    beyond_limit: usize,
}

struct Difference {
    number: usize,
    kind: Kind,
    seed: u64,
    bytes: Vec<u8>,
    listings: Vec<Vec<u8>>,
}

/// What a listing says in its first and in its last line; of another text, nothing and that it is too long.
struct Summary {
    lines: usize,
    refutations: usize,
    ending: Ending,
}

#[derive(Clone, Copy)]
enum Ending {
    Read { length: usize },
    Refused { layer: usize, number: usize, offset: usize },
    TooLong,
}

impl Tally {
    fn count(&mut self, kind: Kind, bytes: &[u8], listing: &[u8]) {
        let summary = summary(listing);
        self.kinds.entry(kind.name()).or_default().count(bytes.len(), &summary);
        let end = match summary.ending {
            Ending::Read { length } => length,
            Ending::Refused { layer, number, offset } => {
                *self.refusals.entry((layer, number)).or_default() += 1;
                self.count_refused_rule(bytes, number, offset);
                offset
            }
            Ending::TooLong => 0,
        };
        self.count_held_rules(&bytes[..end]);
    }

    fn count_refused_rule(&mut self, bytes: &[u8], number: usize, offset: usize) {
        if number == NOT_ADMITTED || number == BEYOND_LIMIT {
            let tally = self.rules.entry(field_at(bytes, offset + HEAD)).or_default();
            tally.not_admitted += usize::from(number == NOT_ADMITTED);
            tally.beyond_limit += usize::from(number == BEYOND_LIMIT);
        }
    }

    /// All records of these bytes were done, so that each line among them is held.
    fn count_held_rules(&mut self, bytes: &[u8]) {
        let mut offset = 0;
        while offset < bytes.len() {
            if kind_of(&bytes[offset..]) == LINE {
                self.rules.entry(field_at(bytes, offset + HEAD)).or_default().held += 1;
            }
            offset += HEAD + field_at(bytes, offset);
        }
    }

    fn add(&mut self, other: Tally) {
        for (kind, tally) in other.kinds {
            self.kinds.entry(kind).or_default().add(&tally);
        }
        for (refusal, count) in other.refusals {
            *self.refusals.entry(refusal).or_default() += count;
        }
        for (rule, tally) in other.rules {
            self.rules.entry(rule).or_default().add(&tally);
        }
        self.differences.extend(other.differences);
    }

    /// What can come up and never did.
    fn missing(&self) -> Vec<String> {
        let mut missing = Vec::new();
        for (layer, number) in REFUSALS {
            if !self.refusals.contains_key(&(layer, number)) {
                missing.push(format!("refused {layer} {number}"));
            }
        }
        for rule in RULES {
            if !self.rules.get(&rule).is_some_and(|tally| tally.held > 0 && tally.not_admitted > 0) {
                missing.push(format!("both a line that is held and one that is not admitted by rule {rule}"));
            }
        }
        missing
    }
}

impl KindTally {
    fn count(&mut self, bytes: usize, summary: &Summary) {
        self.files += 1;
        self.bytes += bytes;
        self.lines += summary.lines;
        self.refutations += summary.refutations;
        match summary.ending {
            Ending::Read { .. } => self.read += 1,
            Ending::Refused { .. } => self.refused += 1,
            Ending::TooLong => self.too_long += 1,
        }
    }

    fn add(&mut self, other: &KindTally) {
        self.files += other.files;
        self.bytes += other.bytes;
        self.read += other.read;
        self.refused += other.refused;
        self.too_long += other.too_long;
        self.lines += other.lines;
        self.refutations += other.refutations;
    }
}

impl RuleTally {
    fn add(&mut self, other: &RuleTally) {
        self.held += other.held;
        self.not_admitted += other.not_admitted;
        self.beyond_limit += other.beyond_limit;
    }
}

fn summary(listing: &[u8]) -> Summary {
    let text = String::from_utf8_lossy(listing);
    let numbers = |line: &str| -> Vec<usize> { line.split(' ').filter_map(|word| word.parse().ok()).collect() };
    let counts = numbers(text.lines().next().unwrap_or_default());
    let last = text.lines().last().unwrap_or_default();
    let ending = match (last.split(' ').next(), numbers(last)[..].as_ref()) {
        (Some("read"), [length]) => Ending::Read { length: *length },
        (Some("refused"), [layer, number, offset]) => Ending::Refused { layer: *layer, number: *number, offset: *offset },
        _ => Ending::TooLong,
    };
    let count = |place: usize| counts.get(place).copied().unwrap_or(0);
    Summary { lines: count(2), refutations: count(3), ending }
}

// ---- Tables ----

impl Tally {
    fn print(&self, readings: &[Reading]) {
        self.print_kinds();
        self.print_refusals();
        self.print_rules();
        for difference in self.first_differences() {
            difference.print(readings);
        }
    }

    fn print_kinds(&self) {
        let [files, bytes, read, refused, too_long] = ["files", "bytes", "read", "refused", "too long"];
        let [lines, refutations, differences] = ["lines", "refutations", "differences"];
        print!("{:<12}{files:>8}{bytes:>12}{read:>8}{refused:>9}{too_long:>10}", "kind");
        println!("{lines:>9}{refutations:>13}{differences:>13}");
        for kind in KINDS {
            if let Some(tally) = self.kinds.get(kind.name()) {
                print_kind(kind.name(), tally, self.differences.iter().filter(|difference| difference.kind == kind).count());
            }
        }
        let mut all = KindTally::default();
        for tally in self.kinds.values() {
            all.add(tally);
        }
        print_kind("all", &all, self.differences.len());
    }

    fn print_refusals(&self) {
        println!("\n{:<12}{:>8}", "refused", "files");
        for ((layer, number), count) in &self.refusals {
            println!("{:<12}{count:>8}", format!("{layer} {number}"));
        }
    }

    fn print_rules(&self) {
        println!("\n{:<12}{:>8}{:>14}{:>18}", "rule", "held", "not admitted", "beyond its limit");
        let mut others = RuleTally::default();
        for (rule, tally) in &self.rules {
            if RULES.contains(rule) { print_rule(&rule.to_string(), tally) } else { others.add(tally) }
        }
        print_rule("any other", &others);
    }

    /// The first by the files' numbers, whichever thread found them.
    fn first_differences(&self) -> Vec<&Difference> {
        let mut all: Vec<&Difference> = self.differences.iter().collect();
        all.sort_by_key(|difference| difference.number);
        all.truncate(SHOWN_DIFFERENCES);
        all
    }
}

fn print_kind(name: &str, tally: &KindTally, differences: usize) {
    let KindTally { files, bytes, read, refused, too_long, lines, refutations } = tally;
    print!("{name:<12}{files:>8}{bytes:>12}{read:>8}{refused:>9}{too_long:>10}");
    println!("{lines:>9}{refutations:>13}{differences:>13}");
}

fn print_rule(name: &str, tally: &RuleTally) {
    println!("{name:<12}{:>8}{:>14}{:>18}", tally.held, tally.not_admitted, tally.beyond_limit);
}

impl Difference {
    fn print(&self, readings: &[Reading]) {
        println!("\ndifference: file {}, kind {}, seed {}", self.number, self.kind.name(), self.seed);
        for (reading, listing) in readings.iter().zip(&self.listings) {
            println!("{}:\n{}", reading.name, String::from_utf8_lossy(listing));
        }
        match self.keep() {
            Ok(path) => println!("the file is {}", path.display()),
            Err(error) => println!("the file could not be kept: {error}"),
        }
    }

    fn keep(&self) -> io::Result<PathBuf> {
        let path = std::env::temp_dir().join(format!("kelombary-{}-{}.case", self.kind.name(), self.seed));
        std::fs::write(&path, &self.bytes)?;
        Ok(path)
    }
}
