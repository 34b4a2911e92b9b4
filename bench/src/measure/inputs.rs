// The case files that are measured, each built record by record.

use crate::random::Random;
use crate::records::{self, field, ASSUME, EMPTY_PLACE, FORM, LINE, PULSES, SEAL, TABLE};

const FALSE: u8 = 0;
const ATOM: u8 = 1;
const IMPLIES: u8 = 2;
const NEXT: u8 = 3;
const ALWAYS: u8 = 4;
/// In the place of a premise that is not given.
const NONE: u16 = EMPTY_PLACE as u16;

/// A case file, and what it has entered so far.
pub struct File {
    pub name: String,
    pub bytes: Vec<u8>,
    forms: Vec<(u8, u16, u16)>,
    lines: u16,
}

impl File {
    fn new(name: &str) -> File {
        File { name: name.to_string(), bytes: Vec::new(), forms: Vec::new(), lines: 0 }
    }

    fn record(&mut self, kind: u16, payload: &[u8]) {
        self.bytes.extend(records::record(kind, payload));
    }

    /// A record whose payload is of these fields.
    fn fields(&mut self, kind: u16, fields: &[u16]) {
        let payload: Vec<u8> = fields.iter().flat_map(|number| field(usize::from(*number))).collect();
        self.record(kind, &payload);
    }

    /// The number of a formula, which is entered where it is new.
    fn form(&mut self, kind: u8, left: u16, right: u16) -> u16 {
        let form = (kind, left, right);
        if let Some(number) = self.forms.iter().position(|there| *there == form) {
            return number as u16;
        }
        self.record(FORM, &records::form(kind, usize::from(left), usize::from(right)));
        self.forms.push(form);
        self.forms.len() as u16 - 1
    }

    fn nothing(&mut self) -> u16 {
        self.form(FALSE, 0, 0)
    }

    fn atom(&mut self, atom: u16) -> u16 {
        self.form(ATOM, atom, 0)
    }

    fn implies(&mut self, left: u16, right: u16) -> u16 {
        self.form(IMPLIES, left, right)
    }

    fn next(&mut self, of: u16) -> u16 {
        self.form(NEXT, of, 0)
    }

    fn always(&mut self, of: u16) -> u16 {
        self.form(ALWAYS, of, 0)
    }

    fn not(&mut self, of: u16) -> u16 {
        let nothing = self.nothing();
        self.implies(of, nothing)
    }

    fn and(&mut self, left: u16, right: u16) -> u16 {
        let not_right = self.not(right);
        let either = self.implies(left, not_right);
        self.not(either)
    }

    fn sometime(&mut self, of: u16) -> u16 {
        let not = self.not(of);
        let always_not = self.always(not);
        self.not(always_not)
    }

    fn assume(&mut self, formula: u16) {
        self.fields(ASSUME, &[formula]);
    }

    fn seal(&mut self) {
        self.fields(SEAL, &[]);
    }

    /// The number of a line that is entered, where every line is held.
    fn line(&mut self, rule: u16, formula: u16, first: u16, second: u16) -> u16 {
        self.fields(LINE, &[rule, formula, first, second]);
        self.lines += 1;
        self.lines - 1
    }

    fn taut(&mut self, formula: u16) -> u16 {
        self.line(1, formula, NONE, NONE)
    }

    fn count(&self) -> u16 {
        self.forms.len() as u16
    }
}

/// A random number of a formula, say: the same ones come in each run.
fn below(random: &mut Random, end: u16) -> u16 {
    random.below(usize::from(end)) as u16
}

/// The example file that README shows.
pub fn example(name: &str) -> File {
    File { bytes: include_bytes!("../../../examples/kit.case").to_vec(), ..File::new(name) }
}

/// Different forms, and the seal: up to 32 atoms, then half implications, half ○ and □ in no order.
pub fn forms(name: &str, count: u16) -> File {
    let mut file = File::new(name);
    for atom in 0..count.min(32) {
        file.atom(atom);
    }
    any_kinds(&mut file, &mut Random::new(1), count);
    file.seal();
    file
}

/// Fills the list of formulas up to a count.
fn any_kinds(file: &mut File, random: &mut Random, count: u16) {
    while file.count() < count {
        let left = below(random, file.count());
        let right = below(random, file.count());
        match below(random, 4) {
            0 => file.next(left),
            1 => file.always(left),
            _ => file.implies(left, right),
        };
    }
}

/// Implications, each from the one before to one as many before as there are prime parts.
/// The last one is from the one before to itself, and all lines name it.
pub fn chain(name: &str, parts: u16, entries: u16, lines: u16) -> File {
    let mut file = File::new(name);
    for part in 0..parts {
        file.atom(part);
    }
    while file.count() < entries - 1 {
        let (before, far) = (file.count() - 1, file.count() - parts);
        file.implies(before, far);
    }
    let last = file.count() - 1;
    let whole = file.implies(last, last);
    file.seal();
    for _ in 0..lines {
        file.taut(whole);
    }
    file
}

/// The truths of a formula under all choices for twelve atoms, 64 in each word.
type Truths = [u64; 64];

/// A formula, a second one that has the same truths and is built otherwise, the negation of the second, and the truths.
#[derive(Clone, Copy)]
struct Twins {
    formula: u16,
    other: u16,
    not_other: u16,
    truths: Truths,
}

/// Implications over random earlier ones, each resting on all before, and beside each A → B its twin ¬B → ¬A over the twins of A and B.
/// Lines state in turn that one of the last formulas implies its twin, or the twin it: only going down to the prime parts decides them.
pub fn shared(name: &str, parts: u16, entries: u16, lines: u16) -> File {
    const TAUTOLOGIES: u16 = 16;
    let mut file = File::new(name);
    let mut random = Random::new(2);
    let mut twins: Vec<Twins> = (0..parts).map(|part| prime(&mut file, part)).collect();
    while file.count() + 3 + TAUTOLOGIES <= entries {
        let next = implication(&mut file, &mut random, &twins, parts);
        twins.push(next);
    }
    let mut tautologies = Vec::new();
    for last in twins.iter().rev() {
        tautologies.push((last.formula, last.other));
        tautologies.push((last.other, last.formula));
    }
    tautologies.truncate((entries - file.count()) as usize);
    let wholes: Vec<u16> = tautologies.iter().map(|(left, right)| file.implies(*left, *right)).collect();
    file.seal();
    for line in 0..lines {
        file.taut(wholes[line as usize % wholes.len()]);
    }
    file
}

fn prime(file: &mut File, part: u16) -> Twins {
    let formula = file.atom(part);
    let not_other = file.not(formula);
    let truths = std::array::from_fn(|word| (0..64).map(|bit| u64::from((64 * word + bit) >> part & 1 == 1) << bit).sum());
    Twins { formula, other: formula, not_other, truths }
}

/// An implication between the last formula and an earlier one, neither nearly always true nor nearly always false.
/// The first ones take in each prime part in turn.
fn implication(file: &mut File, random: &mut Random, twins: &[Twins], parts: u16) -> Twins {
    loop {
        let last = twins[twins.len() - 1];
        let unused = twins.len() as u16 - parts;
        let place = if unused < parts - 1 { unused } else { below(random, twins.len() as u16 - 1) };
        let earlier = twins[place as usize];
        let (left, right) = if below(random, 2) == 0 { (last, earlier) } else { (earlier, last) };
        let truths: Truths = std::array::from_fn(|word| !left.truths[word] | right.truths[word]);
        let held: u32 = truths.iter().map(|word| word.count_ones()).sum();
        if (512..3_584).contains(&held) && twins.iter().all(|before| before.truths != truths) {
            let formula = file.implies(left.formula, right.formula);
            let other = file.implies(right.not_other, left.not_other);
            let not_other = file.not(other);
            return Twins { formula, other, not_other, truths };
        }
    }
}

/// Refutations by pulses, all held, along runs of so many positions.
/// Each assumption is some □A → ○A, which holds on every run, and what is refuted is the negation of an assumption.
pub fn refutations(name: &str, entries: u16, pulses: u16, positions: u16, refutations: u16) -> File {
    const STEM: u16 = 16;
    let mut file = File::new(name);
    let mut random = Random::new(3);
    for atom in 0..32 {
        file.atom(atom);
    }
    any_kinds(&mut file, &mut random, entries - 16 * 4 - 1);
    let refuted: Vec<u16> = (0..16).map(|_| never(&mut file, &mut random)).collect();
    any_kinds(&mut file, &mut random, entries);
    for formula in &refuted {
        let (_, assumption, _) = file.forms[*formula as usize];
        file.assume(assumption);
    }
    file.seal();
    for place in 0..refutations {
        let formula = refuted[place as usize % refuted.len()];
        let mut fields = vec![formula, place % positions, positions - STEM];
        for pulse in 0..pulses {
            fields.extend(any_pulse(&mut random, 32 * pulse / pulses, STEM, positions - STEM));
        }
        fields[4] = STEM;
        file.fields(PULSES, &fields);
    }
    file
}

/// ¬(□A → ○A) for some earlier A: a new formula that holds nowhere.
fn never(file: &mut File, random: &mut Random) -> u16 {
    loop {
        let of = below(random, file.count());
        let (always, next) = (file.always(of), file.next(of));
        let before = file.count();
        let valid = file.implies(always, next);
        if file.count() > before {
            return file.not(valid);
        }
    }
}

/// Atom, first position, period and width of a pulse that fits a stem and a loop.
fn any_pulse(random: &mut Random, atom: u16, stem: u16, whole: u16) -> [u16; 4] {
    let periods: Vec<u16> = (1..=whole).filter(|period| whole.is_multiple_of(*period)).collect();
    let period = periods[below(random, periods.len() as u16) as usize];
    [atom, below(random, stem + 1), period, below(random, period + 1)]
}

/// Lines by mp, from an assumption and a tautology on the first two lines.
pub fn by_mp(name: &str, lines: u16) -> File {
    let mut file = File::new(name);
    let (given, other) = (file.atom(0), file.atom(1));
    let conclusion = file.implies(other, given);
    let whole = file.implies(given, conclusion);
    file.assume(given);
    file.seal();
    let first = file.line(0, given, NONE, NONE);
    let second = file.taut(whole);
    for _ in 2..lines {
        file.line(5, conclusion, first, second);
    }
    file
}

/// A file of 16,384 bytes with all lists full: 1,024 formulas, 16 assumptions, 512 lines by all rules and 64 refutations.
pub fn full(name: &str) -> File {
    let mut file = File::new(name);
    let mut random = Random::new(4);
    let atoms: Vec<u16> = (0..32).map(|atom| file.atom(atom)).collect();
    let assumed: Vec<u16> = atoms[..16].iter().map(|atom| stays(&mut file, *atom)).collect();
    let refuted: Vec<u16> = atoms[16..].iter().map(|atom| file.always(*atom)).collect();
    for formula in &assumed {
        file.assume(*formula);
    }
    file.seal();
    for group in 0..31 {
        let weaker = file.implies(atoms[below(&mut random, 32) as usize], atoms[group]);
        derivation(&mut file, weaker, assumed[group % 16]);
    }
    any_kinds(&mut file, &mut random, 1_024);
    while file.lines < 512 {
        let formula = assumed[file.lines as usize % 16];
        file.line(0, formula, NONE, NONE);
    }
    pulsed(&mut file, &atoms, &refuted);
    for atom in [0, 1] {
        file.fields(TABLE, &[atoms[atom], 4, 2, 3, 0, 1, 0, 2, 0, 3, 0, 4, 0, 5]);
    }
    assert_eq!(file.bytes.len(), 16_384, "the file is full");
    file
}

/// A → ○A
fn stays(file: &mut File, of: u16) -> u16 {
    let next = file.next(of);
    file.implies(of, next)
}

/// Lines by all rules, each once or more, about D, which is that some formula implies one that is assumed.
fn derivation(file: &mut File, weaker: u16, assumed: u16) {
    let derived = file.implies(weaker, assumed);
    let whole = file.implies(assumed, derived);
    let given = file.line(0, assumed, NONE, NONE);
    let weakened = file.taut(whole);
    let held = file.line(5, derived, given, weakened);
    let (next, always) = (file.next(derived), file.always(derived));
    let next_held = file.line(6, next, held, NONE);
    file.line(16, always, held, NONE);
    let stays = file.implies(derived, next);
    let whole = file.implies(next, stays);
    let weakened = file.taut(whole);
    let stays_held = file.line(5, stays, next_held, weakened);
    let for_ever = file.implies(derived, always);
    file.line(17, for_ever, stays_held, NONE);
    let itself = file.implies(derived, derived);
    let itself_held = file.taut(itself);
    file.line(7, for_ever, itself_held, stays_held);
    let sometime = file.sometime(derived);
    let reached = file.implies(derived, sometime);
    let reached_held = file.line(18, reached, stays_held, NONE);
    file.line(19, reached, reached_held, reached_held);
    axioms(file, weaker, derived, assumed);
}

/// The three axioms beside taut: the first of A, the second of A → B, which is `implication`, and the third of A → B.
fn axioms(file: &mut File, left: u16, implication: u16, right: u16) {
    let (not_left, next_left) = (file.not(left), file.next(left));
    let (not_next, next_not) = (file.not(next_left), file.next(not_left));
    let (there, back) = (file.implies(not_next, next_not), file.implies(next_not, not_next));
    let both = file.and(there, back);
    file.line(2, both, NONE, NONE);
    let (next_right, next_implication) = (file.next(right), file.next(implication));
    let parts = file.implies(next_left, next_right);
    let whole = file.implies(next_implication, parts);
    file.line(3, whole, NONE, NONE);
    let always = file.always(implication);
    let later = file.next(always);
    let both = file.and(implication, later);
    let unfolded = file.implies(always, both);
    file.line(4, unfolded, NONE, NONE);
}

/// 62 refutations: 30 have a pulse of an atom that is not assumed to stay, and refute that it is always true; the others refute an atom
/// that is never true.
fn pulsed(file: &mut File, atoms: &[u16], refuted: &[u16]) {
    for place in 0..62 {
        let atom = place % 16;
        if place < 30 {
            file.fields(PULSES, &[refuted[atom as usize], place, 240, 16 + atom, 16, 16, 3 + atom % 9]);
        } else {
            file.fields(PULSES, &[atoms[atom as usize], place, 256]);
        }
    }
}
