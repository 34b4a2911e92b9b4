// The listing of a case file by docs/ alone: truth at positions one by one, and every valuation of prime parts in turn.

use std::fmt::Write;
use std::iter::successors;

const FILE_MOST: usize = 16_384;
const FORMULAS_MOST: usize = 1_024;
const ATOMS: u16 = 32;
const ASSUMPTIONS_MOST: usize = 16;
const LINES_MOST: usize = 512;
const PRIME_PARTS_MOST: usize = 12;
const POSITIONS_MOST: usize = 256;
const REFUTATIONS_MOST: usize = 64;
const HEAD: usize = 4;
const EMPTY_PLACE: u16 = 65_535;

/// The listing of a case file, as the program gives it.
pub fn listing(file: &[u8]) -> Vec<u8> {
    let mut case = Case::default();
    let ending = if file.len() > FILE_MOST { Ending::TooLong } else { read(file, &mut case) };
    written(&case, ending).into_bytes()
}

// ---- What a case holds ----

/// A formula of a list; its operands are the numbers of earlier ones.
#[derive(Clone, Copy, PartialEq)]
pub enum Formula {
    False,
    Atom(u16),
    Implies(usize, usize),
    Next(usize),
    Always(usize),
}

/// Lines and refutations are held as the numbers of the formulas that they state and refute.
#[derive(Default)]
struct Case {
    formulas: Vec<Formula>,
    assumptions: Vec<usize>,
    lines: Vec<usize>,
    refutations: Vec<usize>,
}

/// What can be wrong, with its number.
#[derive(Clone, Copy, Debug, PartialEq)]
pub enum Refusal {
    UnknownKind = 1,
    BadField = 2,
    FormulasFull = 3,
    NotEntered = 4,
    AssumptionsFull = 5,
    LineNotHeld = 6,
    LinesFull = 7,
    NotAdmitted = 8,
    BeyondLimit = 9,
    RunTooLong = 10,
    PastRun = 11,
    AssumptionFalse = 13,
    FormulaTrue = 14,
    RefutationsFull = 15,
    ShortHead = 21,
    PayloadCut = 22,
    KindNotAllowed = 23,
    WrongLength = 24,
    NoSeal = 25,
    NoRun = 26,
}

impl Refusal {
    fn layer(self) -> usize {
        match self {
            Refusal::ShortHead | Refusal::PayloadCut | Refusal::NoSeal => 1,
            Refusal::KindNotAllowed | Refusal::WrongLength | Refusal::NoRun => 2,
            _ => 3,
        }
    }
}

// ---- The records of a file ----

#[derive(Clone, Copy, PartialEq)]
enum Part {
    Front,
    Body,
}

enum Record {
    Form { kind: u8, left: u16, right: u16 },
    Assume { formula: u16 },
    Seal,
    Line { rule: u16, formula: u16, first: u16, second: u16 },
    Refutation(Refutation),
}

/// That a formula does not hold at a position of a run, as a record claims.
pub struct Refutation {
    pub formula: usize,
    pub position: usize,
    pub run: Run,
}

#[derive(Clone, Copy)]
enum Ending {
    Read(usize),
    Refused(Refusal, usize),
    TooLong,
}

fn read(file: &[u8], case: &mut Case) -> Ending {
    let mut offset = 0;
    match read_records(file, &mut offset, case) {
        Ok(()) => Ending::Read(file.len()),
        Err(refusal) => Ending::Refused(refusal, offset),
    }
}

/// Where a record is refused, the offset stays at its head.
fn read_records(file: &[u8], offset: &mut usize, case: &mut Case) -> Result<(), Refusal> {
    let mut part = Part::Front;
    while part == Part::Front || *offset < file.len() {
        let (kind, payload) = next_record(&file[*offset..])?;
        let record = parsed(part, kind, payload)?;
        if let Record::Seal = record {
            part = Part::Body;
        }
        case.take(record)?;
        *offset += HEAD + payload.len();
    }
    Ok(())
}

/// The kind and the payload of the record that the bytes begin with.
fn next_record(bytes: &[u8]) -> Result<(u16, &[u8]), Refusal> {
    if bytes.is_empty() {
        return Err(Refusal::NoSeal);
    }
    if bytes.len() < HEAD {
        return Err(Refusal::ShortHead);
    }
    let head = fields(&bytes[..HEAD]);
    let (length, kind) = (head[0] as usize, head[1]);
    let payload = bytes[HEAD..].get(..length).ok_or(Refusal::PayloadCut)?;
    Ok((kind, payload))
}

fn parsed(part: Part, kind: u16, payload: &[u8]) -> Result<Record, Refusal> {
    match (part, kind) {
        (_, 1) => form(payload),
        (Part::Front, 2) => assume(payload),
        (Part::Front, 3) => seal(payload),
        (Part::Body, 4) => line(payload),
        (Part::Body, 5) => table_refutation(payload).map(Record::Refutation),
        (Part::Body, 6) => pulse_refutation(payload).map(Record::Refutation),
        _ => Err(Refusal::KindNotAllowed),
    }
}

fn form(payload: &[u8]) -> Result<Record, Refusal> {
    of_length(payload, 5)?;
    let operands = fields(&payload[1..]);
    Ok(Record::Form { kind: payload[0], left: operands[0], right: operands[1] })
}

fn assume(payload: &[u8]) -> Result<Record, Refusal> {
    of_length(payload, 2)?;
    Ok(Record::Assume { formula: fields(payload)[0] })
}

fn seal(payload: &[u8]) -> Result<Record, Refusal> {
    of_length(payload, 0)?;
    Ok(Record::Seal)
}

fn line(payload: &[u8]) -> Result<Record, Refusal> {
    of_length(payload, 8)?;
    let all = fields(payload);
    Ok(Record::Line { rule: all[0], formula: all[1], first: all[2], second: all[3] })
}

/// What the payload of a record of kind 5 claims.
pub fn table_refutation(payload: &[u8]) -> Result<Refutation, Refusal> {
    at_least(payload, 8)?;
    let all = fields(&payload[..8]);
    let (stem, loop_length) = (all[2] as usize, all[3] as usize);
    of_length(payload, 8 + 4 * (stem + loop_length))?;
    if loop_length == 0 {
        return Err(Refusal::NoRun);
    }
    let words = payload[8..].chunks_exact(4).map(|word| u32::from_le_bytes([word[0], word[1], word[2], word[3]])).collect();
    let run = Run { stem, loop_length, source: Source::Table(words) };
    Ok(Refutation { formula: all[0] as usize, position: all[1] as usize, run })
}

/// What the payload of a record of kind 6 claims.
pub fn pulse_refutation(payload: &[u8]) -> Result<Refutation, Refusal> {
    at_least(payload, 6)?;
    let all = fields(&payload[..6]);
    let count = (payload.len() - 6) / 8;
    of_length(payload, 6 + 8 * count)?;
    let loop_length = all[2] as usize;
    let pulses: Vec<Pulse> = payload[6..].chunks_exact(8).map(pulse).collect();
    let rising = pulses.windows(2).all(|pair| pair[0].atom < pair[1].atom);
    if loop_length == 0 || !rising || !pulses.iter().all(|pulse| pulse.fits(loop_length)) {
        return Err(Refusal::NoRun);
    }
    let stem = pulses.iter().map(|pulse| pulse.first).max().unwrap_or(0);
    let run = Run { stem, loop_length, source: Source::Pulses(pulses) };
    Ok(Refutation { formula: all[0] as usize, position: all[1] as usize, run })
}

fn pulse(bytes: &[u8]) -> Pulse {
    let all = fields(bytes);
    Pulse { atom: all[0], first: all[1] as usize, period: all[2] as usize, width: all[3] as usize }
}

fn of_length(payload: &[u8], length: usize) -> Result<(), Refusal> {
    if payload.len() == length { Ok(()) } else { Err(Refusal::WrongLength) }
}

fn at_least(payload: &[u8], length: usize) -> Result<(), Refusal> {
    if payload.len() >= length { Ok(()) } else { Err(Refusal::WrongLength) }
}

/// The bytes as fields of two bytes each, the low one first.
fn fields(bytes: &[u8]) -> Vec<u16> {
    bytes.chunks_exact(2).map(|field| u16::from_le_bytes([field[0], field[1]])).collect()
}

// ---- What a case does with records ----

impl Case {
    fn take(&mut self, record: Record) -> Result<(), Refusal> {
        match record {
            Record::Form { kind, left, right } => self.form(kind, left, right),
            Record::Assume { formula } => self.assume(formula as usize),
            Record::Seal => Ok(()),
            Record::Line { rule, formula, first, second } => self.line(rule, formula as usize, first, second),
            Record::Refutation(refutation) => self.refute(&refutation),
        }
    }

    fn form(&mut self, kind: u8, left: u16, right: u16) -> Result<(), Refusal> {
        let formula = match kind {
            0 => Formula::False,
            1 => Formula::Atom(left),
            2 => Formula::Implies(left as usize, right as usize),
            3 => Formula::Next(left as usize),
            4 => Formula::Always(left as usize),
            _ => return Err(Refusal::UnknownKind),
        };
        let entered = self.formulas.len();
        let (left_most, right_most) = match formula {
            Formula::False => (1, 1),
            Formula::Atom(_) => (ATOMS as usize, 1),
            Formula::Implies(..) => (entered, entered),
            Formula::Next(_) | Formula::Always(_) => (entered, 1),
        };
        if left as usize >= left_most || right as usize >= right_most {
            return Err(Refusal::BadField);
        }
        if self.formulas.contains(&formula) {
            return Ok(());
        }
        if entered == FORMULAS_MOST {
            return Err(Refusal::FormulasFull);
        }
        self.formulas.push(formula);
        Ok(())
    }

    fn assume(&mut self, formula: usize) -> Result<(), Refusal> {
        if formula >= self.formulas.len() {
            return Err(Refusal::NotEntered);
        }
        if self.assumptions.contains(&formula) {
            return Ok(());
        }
        if self.assumptions.len() == ASSUMPTIONS_MOST {
            return Err(Refusal::AssumptionsFull);
        }
        self.assumptions.push(formula);
        Ok(())
    }

    fn line(&mut self, rule: u16, formula: usize, first: u16, second: u16) -> Result<(), Refusal> {
        if formula >= self.formulas.len() {
            return Err(Refusal::NotEntered);
        }
        let first = self.premise(first)?;
        let second = self.premise(second)?;
        if self.lines.len() == LINES_MOST {
            return Err(Refusal::LinesFull);
        }
        if rule == 0 {
            let assumed = self.assumptions.contains(&formula) && first.is_none() && second.is_none();
            if !assumed {
                return Err(Refusal::NotAdmitted);
            }
        } else {
            match verdict(&self.formulas, rule, formula, first, second) {
                Verdict::Admitted => {}
                Verdict::NotAdmitted => return Err(Refusal::NotAdmitted),
                Verdict::BeyondLimit => return Err(Refusal::BeyondLimit),
            }
        }
        self.lines.push(formula);
        Ok(())
    }

    /// The formula on the line that a place names, or none for an empty place.
    fn premise(&self, place: u16) -> Result<Option<usize>, Refusal> {
        if place == EMPTY_PLACE {
            return Ok(None);
        }
        self.lines.get(place as usize).map(|formula| Some(*formula)).ok_or(Refusal::LineNotHeld)
    }

    fn refute(&mut self, refutation: &Refutation) -> Result<(), Refusal> {
        let Refutation { formula, position, run } = refutation;
        if *formula >= self.formulas.len() {
            return Err(Refusal::NotEntered);
        }
        if run.positions() > POSITIONS_MOST {
            return Err(Refusal::RunTooLong);
        }
        if *position >= run.positions() {
            return Err(Refusal::PastRun);
        }
        if self.refutations.len() == REFUTATIONS_MOST {
            return Err(Refusal::RefutationsFull);
        }
        let truths = truths(&self.formulas, run);
        if self.assumptions.iter().any(|assumption| truths[*assumption].contains(&false)) {
            return Err(Refusal::AssumptionFalse);
        }
        if truths[*formula][*position] {
            return Err(Refusal::FormulaTrue);
        }
        self.refutations.push(*formula);
        Ok(())
    }
}

// ---- Runs and truth ----

/// A run that repeats from position `stem` on, every `loop_length` positions.
pub struct Run {
    pub stem: usize,
    pub loop_length: usize,
    source: Source,
}

enum Source {
    Table(Vec<u32>),
    Pulses(Vec<Pulse>),
}

struct Pulse {
    atom: u16,
    first: usize,
    period: usize,
    width: usize,
}

impl Pulse {
    fn fits(&self, loop_length: usize) -> bool {
        self.atom < ATOMS && self.period > 0 && self.width <= self.period && loop_length.is_multiple_of(self.period)
    }

    fn is_on(&self, position: usize) -> bool {
        position >= self.first && (position - self.first) % self.period < self.width
    }
}

impl Run {
    /// How many positions the stem and the loop have together.
    pub fn positions(&self) -> usize {
        self.stem + self.loop_length
    }

    /// Whether an atom is true at any position, also behind the loop's end.
    pub fn is_true(&self, atom: u16, position: usize) -> bool {
        match &self.source {
            Source::Table(words) => words[self.folded(position)] >> atom & 1 == 1,
            Source::Pulses(pulses) => pulses.iter().any(|pulse| pulse.atom == atom && pulse.is_on(position)),
        }
    }

    /// The position within stem and loop that is as this one.
    fn folded(&self, position: usize) -> usize {
        if position < self.positions() { position } else { self.stem + (position - self.stem) % self.loop_length }
    }

    /// The positions from this one to the end of the first whole loop that begins here or at the stem's end; behind it all repeats.
    fn ahead(&self, position: usize) -> impl Iterator<Item = usize> + '_ {
        let end = position.max(self.stem) + self.loop_length;
        successors(Some(position), |here| Some(self.folded(here + 1))).take(end - position)
    }
}

/// The truth of each formula at each position of stem and loop. Operands come first in a list, so that each is computed once.
pub fn truths(formulas: &[Formula], run: &Run) -> Vec<Vec<bool>> {
    let mut truths = Vec::new();
    for formula in formulas {
        let along = (0..run.positions()).map(|position| holds(*formula, position, run, &truths)).collect();
        truths.push(along);
    }
    truths
}

fn holds(formula: Formula, position: usize, run: &Run, operands: &[Vec<bool>]) -> bool {
    match formula {
        Formula::False => false,
        Formula::Atom(atom) => run.is_true(atom, position),
        Formula::Implies(left, right) => !operands[left][position] || operands[right][position],
        Formula::Next(operand) => operands[operand][run.folded(position + 1)],
        Formula::Always(operand) => run.ahead(position).all(|later| operands[operand][later]),
    }
}

// ---- Tautologies ----

/// What is met on the way down through implications only, by number; each is marked once, however often it is shared.
struct PropositionalPart {
    prime_parts: Vec<usize>,
    implications: Vec<(usize, usize, usize)>,
}

fn propositional_part(formulas: &[Formula], formula: usize) -> PropositionalPart {
    let mut met = vec![false; formula + 1];
    met[formula] = true;
    let mut part = PropositionalPart { prime_parts: Vec::new(), implications: Vec::new() };
    for number in (0..=formula).rev() {
        if !met[number] {
            continue;
        }
        match formulas[number] {
            Formula::False => {}
            Formula::Implies(left, right) => {
                met[left] = true;
                met[right] = true;
                part.implications.push((number, left, right));
            }
            Formula::Atom(_) | Formula::Next(_) | Formula::Always(_) => part.prime_parts.push(number),
        }
    }
    // Operands have lower numbers, so that they come first when this is evaluated.
    part.implications.reverse();
    part
}

/// Whether a formula is a tautology; none if it has too many prime parts to try.
pub fn is_tautology(formulas: &[Formula], formula: usize) -> Option<bool> {
    let part = propositional_part(formulas, formula);
    if part.prime_parts.len() > PRIME_PARTS_MOST {
        return None;
    }
    let mut truth = vec![false; formula + 1];
    let valuations = 1 << part.prime_parts.len();
    Some((0..valuations).all(|valuation| is_true_under(valuation, &part, formula, &mut truth)))
}

/// Bit k of a valuation is the truth of the k-th prime part. False stays false in `truth`, since nothing writes it.
fn is_true_under(valuation: usize, part: &PropositionalPart, formula: usize, truth: &mut [bool]) -> bool {
    for (k, prime_part) in part.prime_parts.iter().enumerate() {
        truth[*prime_part] = valuation >> k & 1 == 1;
    }
    for (number, left, right) in &part.implications {
        truth[*number] = !truth[*left] || truth[*right];
    }
    truth[formula]
}

// ---- Rules ----

enum Verdict {
    Admitted,
    NotAdmitted,
    BeyondLimit,
}

fn verdict(formulas: &[Formula], rule: u16, formula: usize, first: Option<usize>, second: Option<usize>) -> Verdict {
    let shapes = Shapes { formulas };
    let gives = match (rule, first, second) {
        (1, None, None) => match is_tautology(formulas, formula) {
            None => return Verdict::BeyondLimit,
            Some(tautology) => Some(tautology),
        },
        (2, None, None) => shapes.is_ltl1(formula),
        (3, None, None) => shapes.is_ltl2(formula),
        (4, None, None) => shapes.is_ltl3(formula),
        (5, Some(first), Some(second)) => shapes.is_mp(first, second, formula),
        (6, Some(first), None) => shapes.is_nex(first, formula),
        (7, Some(first), Some(second)) => shapes.is_ind(first, second, formula),
        (16, Some(first), None) => shapes.is_alw(first, formula),
        (17, Some(first), None) => shapes.is_ind1(first, formula),
        (18, Some(first), None) => shapes.is_som(first, formula),
        (19, Some(first), Some(second)) => shapes.is_chain(first, second, formula),
        _ => None,
    };
    if gives == Some(true) { Verdict::Admitted } else { Verdict::NotAdmitted }
}

/// Formulas taken apart. No two numbers stand for one formula, so that equal formulas have equal numbers.
/// Each `is_` answers none where a formula has not the outer shape that it must have.
struct Shapes<'a> {
    formulas: &'a [Formula],
}

impl Shapes<'_> {
    /// A and B, where the formula is A → B.
    fn implication(&self, formula: usize) -> Option<(usize, usize)> {
        match self.formulas[formula] {
            Formula::Implies(left, right) => Some((left, right)),
            _ => None,
        }
    }

    /// A, where the formula is ○A.
    fn next(&self, formula: usize) -> Option<usize> {
        match self.formulas[formula] {
            Formula::Next(operand) => Some(operand),
            _ => None,
        }
    }

    /// A, where the formula is □A.
    fn always(&self, formula: usize) -> Option<usize> {
        match self.formulas[formula] {
            Formula::Always(operand) => Some(operand),
            _ => None,
        }
    }

    /// A, where the formula is ¬A, which stands for A → false.
    fn not(&self, formula: usize) -> Option<usize> {
        let (left, right) = self.implication(formula)?;
        (self.formulas[right] == Formula::False).then_some(left)
    }

    /// A and B, where the formula is A ∧ B, which stands for ¬(A → ¬B).
    fn and(&self, formula: usize) -> Option<(usize, usize)> {
        let (left, not_right) = self.implication(self.not(formula)?)?;
        Some((left, self.not(not_right)?))
    }

    /// A and B, where the formula is A ↔ B, which stands for (A → B) ∧ (B → A).
    fn equivalence(&self, formula: usize) -> Option<(usize, usize)> {
        let (there, back) = self.and(formula)?;
        let (left, right) = self.implication(there)?;
        (self.implication(back)? == (right, left)).then_some((left, right))
    }

    /// A, where the formula is ◇A, which stands for ¬□¬A.
    fn sometime(&self, formula: usize) -> Option<usize> {
        self.not(self.always(self.not(formula)?)?)
    }

    /// ¬○A ↔ ○¬A
    fn is_ltl1(&self, formula: usize) -> Option<bool> {
        let (left, right) = self.equivalence(formula)?;
        Some(self.next(self.not(left)?)? == self.not(self.next(right)?)?)
    }

    /// ○(A → B) → (○A → ○B)
    fn is_ltl2(&self, formula: usize) -> Option<bool> {
        let (next_of_both, rest) = self.implication(formula)?;
        let (next_a, next_b) = self.implication(rest)?;
        Some(self.implication(self.next(next_of_both)?)? == (self.next(next_a)?, self.next(next_b)?))
    }

    /// □A → (A ∧ ○□A)
    fn is_ltl3(&self, formula: usize) -> Option<bool> {
        let (always_a, now_and_next) = self.implication(formula)?;
        let (now, next) = self.and(now_and_next)?;
        Some(self.always(always_a)? == now && self.next(next)? == always_a)
    }

    /// A and A → B give B.
    fn is_mp(&self, first: usize, second: usize, formula: usize) -> Option<bool> {
        Some(self.implication(second)? == (first, formula))
    }

    /// A gives ○A.
    fn is_nex(&self, first: usize, formula: usize) -> Option<bool> {
        Some(self.next(formula)? == first)
    }

    /// A → B and A → ○A give A → □B.
    fn is_ind(&self, first: usize, second: usize, formula: usize) -> Option<bool> {
        let (a, b) = self.implication(first)?;
        let (kept, next) = self.implication(second)?;
        let (left, right) = self.implication(formula)?;
        Some(kept == a && self.next(next)? == a && left == a && self.always(right)? == b)
    }

    /// A gives □A.
    fn is_alw(&self, first: usize, formula: usize) -> Option<bool> {
        Some(self.always(formula)? == first)
    }

    /// A → ○A gives A → □A.
    fn is_ind1(&self, first: usize, formula: usize) -> Option<bool> {
        let (a, next) = self.implication(first)?;
        let (left, right) = self.implication(formula)?;
        Some(self.next(next)? == a && left == a && self.always(right)? == a)
    }

    /// A → ○B gives A → ◇B.
    fn is_som(&self, first: usize, formula: usize) -> Option<bool> {
        let (a, next_b) = self.implication(first)?;
        let (left, right) = self.implication(formula)?;
        Some(left == a && self.sometime(right)? == self.next(next_b)?)
    }

    /// A → ◇B and B → ◇C give A → ◇C.
    fn is_chain(&self, first: usize, second: usize, formula: usize) -> Option<bool> {
        let (a, sometime_b) = self.implication(first)?;
        let (b, sometime_c) = self.implication(second)?;
        let (left, right) = self.implication(formula)?;
        let c = self.sometime(sometime_c)?;
        Some(self.sometime(sometime_b)? == b && left == a && self.sometime(right)? == c)
    }
}

// ---- The listing ----

fn written(case: &Case, ending: Ending) -> String {
    let mut text = String::new();
    let (formulas, assumptions) = (case.formulas.len(), case.assumptions.len());
    let (lines, refutations) = (case.lines.len(), case.refutations.len());
    writeln!(text, "formulas {formulas} assumptions {assumptions} lines {lines} refutations {refutations}").expect(STRING);
    for number in 0..case.formulas.len() {
        text += &standing(case, number);
    }
    match ending {
        Ending::Read(length) => writeln!(text, "read {length}"),
        Ending::Refused(refusal, offset) => writeln!(text, "refused {} {} {offset}", refusal.layer(), refusal as usize),
        Ending::TooLong => writeln!(text, "too long"),
    }
    .expect(STRING);
    text
}

const STRING: &str = "writing to a string does not fail";

/// The line that says how a formula stands, or nothing.
fn standing(case: &Case, number: usize) -> String {
    if let Some(line) = case.lines.iter().position(|formula| *formula == number) {
        return format!("{number} derived {line}\n");
    }
    if let Some(refutation) = case.refutations.iter().position(|formula| *formula == number) {
        return format!("{number} refuted {refutation}\n");
    }
    String::new()
}
