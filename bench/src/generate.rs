// Case files by kind: good ones, good ones with something turned, ones at the limits, and ones that are hardly files.

mod draft;
mod edges;
mod limits;
mod misfits;
mod runs;
mod shapes;
mod steps;

use crate::random::Random;
use crate::records::{field, kind_of, ASSUME, EMPTY_PLACE, FORM, HEAD, LINE, PULSES, SEAL, TABLE};
use draft::{Draft, Slips};

#[derive(Clone, Copy, PartialEq)]
pub enum Kind {
    /// Forms, assumptions, a seal, lines and refutations that are held.
    Good,
    /// Good ones with slips, or with one field turned.
    NearlyGood,
    /// Lines by each rule from assumed premises, one of which misses the rule's shape in one place; runs that are hardly runs.
    Misfit,
    /// Lists, runs and files at their limits and beyond.
    Full,
    /// Good ones with a number beyond what is there.
    Beyond,
    /// Good ones that end early.
    Cut,
    /// Good ones with bytes or records changed, inserted, exchanged or dropped.
    Damaged,
    /// Deep formulas that share their parts.
    Sharing,
    /// Records of random fields, and random bytes.
    Noise,
}

pub const KINDS: [Kind; 9] =
    [Kind::Good, Kind::NearlyGood, Kind::Misfit, Kind::Full, Kind::Beyond, Kind::Cut, Kind::Damaged, Kind::Sharing, Kind::Noise];

impl Kind {
    pub fn name(self) -> &'static str {
        match self {
            Kind::Good => "good",
            Kind::NearlyGood => "nearly-good",
            Kind::Misfit => "misfit",
            Kind::Full => "full",
            Kind::Beyond => "beyond",
            Kind::Cut => "cut",
            Kind::Damaged => "damaged",
            Kind::Sharing => "sharing",
            Kind::Noise => "noise",
        }
    }
}

/// The file of a kind that a seed stands for.
pub fn file(kind: Kind, seed: u64) -> Vec<u8> {
    let mut draft = Draft::new(seed);
    match kind {
        Kind::Good => write_some(&mut draft),
        Kind::NearlyGood => write_nearly_good(&mut draft),
        Kind::Misfit => misfits::write_misfit(&mut draft),
        Kind::Full => limits::write_full(&mut draft),
        Kind::Beyond => {
            write_some(&mut draft);
            pass_some(&mut draft);
        }
        Kind::Cut => {
            write_some(&mut draft);
            return cut(&mut draft);
        }
        Kind::Damaged => {
            write_some(&mut draft);
            return damaged(&mut draft);
        }
        Kind::Sharing => limits::write_sharing(&mut draft),
        Kind::Noise => return noise(&mut draft),
    }
    draft.file()
}

/// A good file, mostly a small one.
fn write_some(draft: &mut Draft) {
    let most = draft.random.pick(&[2, 6, 6, 12, 12, 30, 60]);
    let steps = draft.random.between(0, most);
    steps::write_good(draft, steps, 15_000);
}

fn write_nearly_good(draft: &mut Draft) {
    if draft.random.one_in(3) {
        write_some(draft);
        turn_field(draft);
    } else {
        draft.slips = Slips::OneIn(draft.random.pick(&[20, 60, 150]));
        write_some(draft);
    }
}

// ---- Turned fields ----

/// Turns one field of a record a little, mostly of a line or a refutation.
fn turn_field(draft: &mut Draft) {
    let number = any_record(draft);
    let places = places_of_fields(&draft.records[number]);
    if places.is_empty() {
        return;
    }
    let place = draft.random.below(places.len());
    let here = places[place];
    let there = places[(place + 1) % places.len()];
    let record = &mut draft.records[number];
    let value = read(record, here);
    match draft.random.below(6) {
        0 => write(record, here, value.wrapping_add(1)),
        1 => write(record, here, value.wrapping_sub(1)),
        2 => write(record, here, draft.random.below(8)),
        3 => write(record, here, value ^ 1 << draft.random.below(16)),
        4 => write(record, here, EMPTY_PLACE),
        _ => {
            let other = read(record, there);
            write(record, here, other);
            write(record, there, value);
        }
    }
}

/// Puts one or two numbers at a limit or beyond it into a record, or into its head.
fn pass_some(draft: &mut Draft) {
    let number = any_record(draft);
    let fields = places_of_fields(&draft.records[number]);
    let places = if fields.is_empty() || draft.random.one_in(8) { vec![0, 2] } else { fields };
    for _ in 0..draft.random.between(1, 2) {
        let value = any_limit(draft);
        let place = draft.random.pick(&places);
        write(&mut draft.records[number], place, value);
    }
}

const NUMBERS_AT_LIMITS: [usize; 22] =
    [0, 4, 7, 8, 15, 16, 19, 20, 31, 32, 64, 255, 256, 511, 512, 1_023, 1_024, 16_384, 32_767, 32_768, 65_534, 65_535];

fn any_limit(draft: &mut Draft) -> usize {
    let lists = [draft.formulas.len(), draft.lines.len(), draft.assumptions.len()];
    match draft.random.below(3) {
        0 => draft.random.pick(&lists),
        1 => draft.random.pick(&NUMBERS_AT_LIMITS),
        _ => draft.random.below(65_536),
    }
}

/// The number of a record, mostly of a line or a refutation.
fn any_record(draft: &mut Draft) -> usize {
    let is_late = |number: &usize| kind_of(&draft.records[*number]) >= LINE;
    let late: Vec<usize> = (0..draft.records.len()).filter(is_late).collect();
    if late.is_empty() || draft.random.one_in(4) { draft.random.below(draft.records.len()) } else { draft.random.pick(&late) }
}

/// Where the fields of a record begin; of a run's words or pulses one is among them.
fn places_of_fields(record: &[u8]) -> Vec<usize> {
    match kind_of(record) {
        FORM => vec![4, 5, 7],
        ASSUME => vec![4],
        SEAL => vec![],
        LINE => vec![4, 6, 8, 10],
        _ => (HEAD..record.len() - 1).step_by(2).collect(),
    }
}

/// A form's kind has one byte only, and all other fields have two; what is at place 4 of a form is its kind.
fn is_byte(record: &[u8], place: usize) -> bool {
    place == HEAD && kind_of(record) == FORM
}

fn read(record: &[u8], place: usize) -> usize {
    let high = if is_byte(record, place) { 0 } else { record[place + 1] };
    u16::from_le_bytes([record[place], high]) as usize
}

fn write(record: &mut [u8], place: usize, value: usize) {
    let [low, high] = field(value);
    if !is_byte(record, place) {
        record[place + 1] = high;
    }
    record[place] = low;
}

// ---- Ends, damages, noise ----

/// Ends the file at or within a record.
fn cut(draft: &mut Draft) -> Vec<u8> {
    let number = draft.random.below(draft.records.len());
    let length = draft.records[number].len();
    let kept = draft.random.pick(&[0, 1, 2, 3, 4, 5, length / 2, length - 1]).min(length);
    let mut file = draft.records[..number].concat();
    file.extend(&draft.records[number][..kept]);
    file
}

fn damaged(draft: &mut Draft) -> Vec<u8> {
    if draft.random.one_in(2) {
        damage_records(draft);
    }
    let mut file = draft.file();
    for _ in 0..draft.random.between(1, 3) {
        damage_bytes(&mut draft.random, &mut file);
    }
    file
}

/// Drops, doubles or exchanges whole records, or changes a head.
fn damage_records(draft: &mut Draft) {
    let first = draft.random.below(draft.records.len());
    let second = draft.random.below(draft.records.len());
    match draft.random.below(5) {
        0 if draft.records.len() > 1 => drop(draft.records.remove(first)),
        1 => draft.records.insert(second, draft.records[first].clone()),
        2 => draft.records.swap(first, second),
        3 => draft.records[first][0] = draft.random.below(20) as u8,
        _ => draft.records[first][2] = draft.random.below(8) as u8,
    }
}

fn damage_bytes(random: &mut Random, file: &mut Vec<u8>) {
    if file.is_empty() {
        return;
    }
    let (place, other) = (random.below(file.len()), random.below(file.len()));
    match random.below(6) {
        0 => file[place] = random.below(256) as u8,
        1 => file[place] ^= 1 << random.below(8),
        2 => file.insert(place, random.below(4) as u8),
        3 => drop(file.remove(place)),
        4 => file.swap(place, other),
        _ => file.truncate(file.len() - random.below(file.len().min(6))),
    }
}

fn noise(draft: &mut Draft) -> Vec<u8> {
    if draft.random.one_in(3) {
        let length = draft.random.below(200);
        return (0..length).map(|_| draft.random.below(256) as u8).collect();
    }
    for _ in 0..draft.random.between(1, 30) {
        random_record(draft);
    }
    draft.file()
}

/// A record with small fields, mostly of a length that its kind has.
fn random_record(draft: &mut Draft) {
    let kind = draft.random.pick(&[FORM, FORM, FORM, FORM, FORM, ASSUME, SEAL, LINE, LINE, TABLE, PULSES, 0, 7]);
    let fields = match kind {
        FORM => 2,
        ASSUME => 1,
        LINE => 4,
        _ => draft.random.below(9),
    };
    let mut payload = Vec::new();
    if kind == FORM {
        payload.push(draft.random.below(6) as u8);
    }
    for _ in 0..fields {
        let value = draft.random.pick(&[0, 0, 1, 1, 2, 3, EMPTY_PLACE]);
        payload.extend(field(value));
    }
    draft.record(kind, &payload);
}
