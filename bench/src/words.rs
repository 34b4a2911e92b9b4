// The listing of a case file as one writes it by hand: 64 positions of a run, or 64 choices, in each word.

const FILE_MOST: usize = 16_384;
const FORMULAS_MOST: usize = 1_024;
const ATOMS: usize = 32;
const ASSUMPTIONS_MOST: usize = 16;
const LINES_MOST: usize = 512;
const REFUTATIONS_MOST: usize = 64;
const POSITIONS_MOST: usize = 256;
const PARTS_MOST: usize = 12;
const EMPTY_PLACE: u16 = 65_535;

/// The listing of a file, with what is entered, what is held, and how the reading ended.
pub fn listing(file: &[u8]) -> Vec<u8> {
    let mut case = Case::new();
    let ending = read(&mut case, file);
    written(&case, ending)
}

enum Ending {
    Read(usize),
    Refused(Fault, usize),
    TooLong,
}

/// A layer and a number in it.
type Fault = (usize, usize);

/// What a case refuses with.
type Refusal = usize;

const SHORT_HEAD: Fault = (1, 21);
const PAYLOAD_CUT: Fault = (1, 22);
const NO_SEAL: Fault = (1, 25);
const KIND_NOT_ALLOWED: Fault = (2, 23);
const WRONG_LENGTH: Fault = (2, 24);
const NO_RUN: Fault = (2, 26);

const UNKNOWN_KIND: Refusal = 1;
const BAD_FIELD: Refusal = 2;
const FORMULAS_FULL: Refusal = 3;
const NOT_ENTERED: Refusal = 4;
const ASSUMPTIONS_FULL: Refusal = 5;
const LINE_NOT_HELD: Refusal = 6;
const LINES_FULL: Refusal = 7;
const NOT_ADMITTED: Refusal = 8;
const BEYOND_LIMIT: Refusal = 9;
const RUN_TOO_LONG: Refusal = 10;
const PAST_RUN: Refusal = 11;
const ASSUMPTION_FALSE: Refusal = 13;
const FORMULA_TRUE: Refusal = 14;
const REFUTATIONS_FULL: Refusal = 15;

// Reading.

/// Reads record after record, the front up to its seal and then the body, to the file's end or the first fault.
fn read(case: &mut Case, file: &[u8]) -> Ending {
    if file.len() > FILE_MOST {
        return Ending::TooLong;
    }
    let mut sealed = false;
    let mut offset = 0;
    while offset < file.len() || !sealed {
        match record(case, &mut sealed, &file[offset..]) {
            Ok(length) => offset += length,
            Err(fault) => return Ending::Refused(fault, offset),
        }
    }
    Ending::Read(file.len())
}

/// Does what the record at the head of `rest` asks for, and answers its length.
fn record(case: &mut Case, sealed: &mut bool, rest: &[u8]) -> Result<usize, Fault> {
    if rest.is_empty() {
        return Err(NO_SEAL);
    }
    let (head, behind) = rest.split_first_chunk::<4>().ok_or(SHORT_HEAD)?;
    let length = field(head, 0) as usize;
    let payload = behind.get(..length).ok_or(PAYLOAD_CUT)?;
    match (field(head, 2), *sealed) {
        (1, _) => form(case, payload)?,
        (2, false) => assume(case, payload)?,
        (3, false) => *sealed = seal(payload)?,
        (4, true) => line(case, payload)?,
        (5, true) => table(case, payload)?,
        (6, true) => pulses(case, payload)?,
        _ => return Err(KIND_NOT_ALLOWED),
    }
    Ok(4 + length)
}

fn field(bytes: &[u8], at: usize) -> u16 {
    u16::from_le_bytes([bytes[at], bytes[at + 1]])
}

fn of_case(refusal: Refusal) -> Fault {
    (3, refusal)
}

fn form(case: &mut Case, payload: &[u8]) -> Result<(), Fault> {
    if payload.len() != 5 {
        return Err(WRONG_LENGTH);
    }
    case.form(payload[0], field(payload, 1), field(payload, 3)).map_err(of_case)
}

fn assume(case: &mut Case, payload: &[u8]) -> Result<(), Fault> {
    if payload.len() != 2 {
        return Err(WRONG_LENGTH);
    }
    case.assume(field(payload, 0)).map_err(of_case)
}

fn seal(payload: &[u8]) -> Result<bool, Fault> {
    if payload.is_empty() { Ok(true) } else { Err(WRONG_LENGTH) }
}

fn line(case: &mut Case, payload: &[u8]) -> Result<(), Fault> {
    if payload.len() != 8 {
        return Err(WRONG_LENGTH);
    }
    case.line(field(payload, 0), field(payload, 2), field(payload, 4), field(payload, 6)).map_err(of_case)
}

fn table(case: &mut Case, payload: &[u8]) -> Result<(), Fault> {
    let (head, words) = payload.split_first_chunk::<8>().ok_or(WRONG_LENGTH)?;
    let (stem, period) = (field(head, 4) as usize, field(head, 6) as usize);
    if words.len() != 4 * (stem + period) {
        return Err(WRONG_LENGTH);
    }
    if period == 0 {
        return Err(NO_RUN);
    }
    let run = Run { stem, length: stem + period, atoms: Atoms::Table(words) };
    case.refute(field(head, 0), field(head, 2), &run).map_err(of_case)
}

fn pulses(case: &mut Case, payload: &[u8]) -> Result<(), Fault> {
    let (head, bytes) = payload.split_first_chunk::<6>().ok_or(WRONG_LENGTH)?;
    let (pulses, behind) = bytes.as_chunks::<8>();
    if !behind.is_empty() {
        return Err(WRONG_LENGTH);
    }
    let period = field(head, 4);
    let rising = pulses.windows(2).all(|pair| field(&pair[0], 0) < field(&pair[1], 0));
    if period == 0 || !rising || !pulses.iter().all(|bytes| Pulse::of(bytes).fits(period)) {
        return Err(NO_RUN);
    }
    let stem = pulses.iter().map(|bytes| Pulse::of(bytes).first as usize).max().unwrap_or(0);
    let run = Run { stem, length: stem + period as usize, atoms: Atoms::Pulses(pulses) };
    case.refute(field(head, 0), field(head, 2), &run).map_err(of_case)
}

// Cases.

#[derive(Clone, Copy, PartialEq)]
enum Formula {
    False,
    Atom(u8),
    Implies(u16, u16),
    Next(u16),
    Always(u16),
}

use Formula::{Always, Atom, False, Implies, Next};

impl Formula {
    /// The lowest number that it can have: operands have lower ones.
    fn earliest(self) -> usize {
        match self {
            False | Atom(_) => 0,
            Implies(left, right) => left.max(right) as usize + 1,
            Next(of) | Always(of) => of as usize + 1,
        }
    }
}

/// What is entered and held, and the rows that tautologies and runs are computed in: all memory is taken when a case is made.
struct Case {
    formulas: Vec<Formula>,
    assumptions: Vec<u16>,
    /// The formula on each line.
    lines: Vec<u16>,
    /// The formula of each refutation.
    refutations: Vec<u16>,
    /// The truth of each formula along the run that was judged last.
    truths: Vec<Row>,
    choices: Choices,
}

impl Case {
    fn new() -> Case {
        Case {
            formulas: Vec::with_capacity(FORMULAS_MOST),
            assumptions: Vec::with_capacity(ASSUMPTIONS_MOST),
            lines: Vec::with_capacity(LINES_MOST),
            refutations: Vec::with_capacity(REFUTATIONS_MOST),
            truths: Vec::with_capacity(FORMULAS_MOST),
            choices: Choices::new(),
        }
    }

    fn entered(&self, number: u16) -> bool {
        (number as usize) < self.formulas.len()
    }

    /// Enters a formula that is not there yet. It is looked for entry by entry behind its operands, without an index, as in the checker.
    fn form(&mut self, kind: u8, left: u16, right: u16) -> Result<(), Refusal> {
        let formula = match (kind, left, right) {
            (0, 0, 0) => False,
            (1, atom, 0) if (atom as usize) < ATOMS => Atom(atom as u8),
            (2, left, right) if self.entered(left) && self.entered(right) => Implies(left, right),
            (3, of, 0) if self.entered(of) => Next(of),
            (4, of, 0) if self.entered(of) => Always(of),
            (0..=4, _, _) => return Err(BAD_FIELD),
            _ => return Err(UNKNOWN_KIND),
        };
        if !self.formulas[formula.earliest()..].contains(&formula) {
            enter(&mut self.formulas, formula, FORMULAS_MOST, FORMULAS_FULL)?;
        }
        Ok(())
    }

    fn assume(&mut self, formula: u16) -> Result<(), Refusal> {
        if !self.entered(formula) {
            return Err(NOT_ENTERED);
        }
        if !self.assumptions.contains(&formula) {
            enter(&mut self.assumptions, formula, ASSUMPTIONS_MOST, ASSUMPTIONS_FULL)?;
        }
        Ok(())
    }

    fn line(&mut self, rule: u16, formula: u16, first: u16, second: u16) -> Result<(), Refusal> {
        if !self.entered(formula) {
            return Err(NOT_ENTERED);
        }
        let premises = (self.premise(first)?, self.premise(second)?);
        if self.lines.len() == LINES_MOST {
            return Err(LINES_FULL);
        }
        let admitted = match (rule, premises) {
            (0, (None, None)) => self.assumptions.contains(&formula),
            (1, (None, None)) => self.choices.tautology(&self.formulas, formula).ok_or(BEYOND_LIMIT)?,
            (_, (first, second)) => Page(&self.formulas).admits(rule, formula, first, second).is_some(),
        };
        if !admitted {
            return Err(NOT_ADMITTED);
        }
        self.lines.push(formula);
        Ok(())
    }

    /// The formula on the line at a place, or none where the place is empty.
    fn premise(&self, place: u16) -> Result<Option<u16>, Refusal> {
        if place == EMPTY_PLACE {
            return Ok(None);
        }
        self.lines.get(place as usize).map(|formula| Some(*formula)).ok_or(LINE_NOT_HELD)
    }

    fn refute(&mut self, formula: u16, position: u16, run: &Run) -> Result<(), Refusal> {
        let position = position as usize;
        if !self.entered(formula) {
            return Err(NOT_ENTERED);
        }
        if run.length > POSITIONS_MOST {
            return Err(RUN_TOO_LONG);
        }
        if position >= run.length {
            return Err(PAST_RUN);
        }
        if self.refutations.len() == REFUTATIONS_MOST {
            return Err(REFUTATIONS_FULL);
        }
        truths(&self.formulas, run, &mut self.truths);
        let everywhere = below(run.length);
        if !self.assumptions.iter().all(|assumption| self.truths[*assumption as usize] == everywhere) {
            return Err(ASSUMPTION_FALSE);
        }
        if self.truths[formula as usize][position / 64] >> (position % 64) & 1 == 1 {
            return Err(FORMULA_TRUE);
        }
        self.refutations.push(formula);
        Ok(())
    }
}

fn enter<T>(list: &mut Vec<T>, entry: T, most: usize, full: Refusal) -> Result<(), Refusal> {
    if list.len() == most {
        return Err(full);
    }
    list.push(entry);
    Ok(())
}

// Rules.

/// The rules but taut over a list of formulas. Each answers `Some` exactly where it admits.
struct Page<'a>(&'a [Formula]);

impl Page<'_> {
    fn admits(&self, rule: u16, conclusion: u16, first: Option<u16>, second: Option<u16>) -> Option<()> {
        match (rule, first, second) {
            (2, None, None) => self.next_of_not(conclusion),
            (3, None, None) => self.next_of_implication(conclusion),
            (4, None, None) => self.always_unfolds(conclusion),
            (5, Some(first), Some(second)) => same(self.implication(second)?, (first, conclusion)),
            (6, Some(first), None) => same(self.next(conclusion)?, first),
            (7, Some(first), Some(second)) => self.induction(conclusion, first, second),
            (16, Some(first), None) => same(self.always(conclusion)?, first),
            (17, Some(first), None) => self.persistence(conclusion, first),
            (18, Some(first), None) => self.eventually(conclusion, first),
            (19, Some(first), Some(second)) => self.chain(conclusion, first, second),
            _ => None,
        }
    }

    /// ¬○A ↔ ○¬A
    fn next_of_not(&self, conclusion: u16) -> Option<()> {
        let (there, back) = self.conjunction(conclusion)?;
        let (left, right) = self.implication(there)?;
        same(self.implication(back)?, (right, left))?;
        same(self.next(self.negation(left)?)?, self.negation(self.next(right)?)?)
    }

    /// ○(A → B) → (○A → ○B)
    fn next_of_implication(&self, conclusion: u16) -> Option<()> {
        let (whole, parts) = self.implication(conclusion)?;
        let (left, right) = self.implication(parts)?;
        same(self.implication(self.next(whole)?)?, (self.next(left)?, self.next(right)?))
    }

    /// □A → (A ∧ ○□A)
    fn always_unfolds(&self, conclusion: u16) -> Option<()> {
        let (always, both) = self.implication(conclusion)?;
        let (now, later) = self.conjunction(both)?;
        same((self.always(always)?, self.next(later)?), (now, always))
    }

    /// A → B and A → ○A give A → □B.
    fn induction(&self, conclusion: u16, first: u16, second: u16) -> Option<()> {
        let (left, right) = self.implication(conclusion)?;
        let (from, to) = self.implication(second)?;
        same(self.implication(first)?, (left, self.always(right)?))?;
        same((from, self.next(to)?), (left, left))
    }

    /// A → ○A gives A → □A.
    fn persistence(&self, conclusion: u16, first: u16) -> Option<()> {
        let (left, right) = self.implication(conclusion)?;
        let (from, to) = self.implication(first)?;
        same((self.always(right)?, from, self.next(to)?), (left, left, left))
    }

    /// A → ○B gives A → ◇B.
    fn eventually(&self, conclusion: u16, first: u16) -> Option<()> {
        let (left, right) = self.implication(conclusion)?;
        let (from, to) = self.implication(first)?;
        same((from, self.next(to)?), (left, self.sometime(right)?))
    }

    /// A → ◇B and B → ◇C give A → ◇C.
    fn chain(&self, conclusion: u16, first: u16, second: u16) -> Option<()> {
        let (start, end) = self.implication(conclusion)?;
        let (from, middle) = self.implication(first)?;
        let (over, to) = self.implication(second)?;
        self.sometime(end)?;
        same((from, self.sometime(middle)?, to), (start, over, end))
    }

    fn implication(&self, number: u16) -> Option<(u16, u16)> {
        match self.0[number as usize] {
            Implies(left, right) => Some((left, right)),
            _ => None,
        }
    }

    fn next(&self, number: u16) -> Option<u16> {
        match self.0[number as usize] {
            Next(of) => Some(of),
            _ => None,
        }
    }

    fn always(&self, number: u16) -> Option<u16> {
        match self.0[number as usize] {
            Always(of) => Some(of),
            _ => None,
        }
    }

    /// A of ¬A
    fn negation(&self, number: u16) -> Option<u16> {
        let (of, nothing) = self.implication(number)?;
        (self.0[nothing as usize] == False).then_some(of)
    }

    /// A and B of A ∧ B
    fn conjunction(&self, number: u16) -> Option<(u16, u16)> {
        let (left, not_right) = self.implication(self.negation(number)?)?;
        Some((left, self.negation(not_right)?))
    }

    /// A of ◇A
    fn sometime(&self, number: u16) -> Option<u16> {
        self.negation(self.always(self.negation(number)?)?)
    }
}

fn same<T: PartialEq>(one: T, other: T) -> Option<()> {
    (one == other).then_some(())
}

// Truth along a run.

/// Bit i is the truth at position i, the lowest bits first.
type Row = [u64; 4];

struct Run<'a> {
    stem: usize,
    /// Positions of stem and loop together.
    length: usize,
    atoms: Atoms<'a>,
}

enum Atoms<'a> {
    Table(&'a [u8]),
    Pulses(&'a [[u8; 8]]),
}

struct Pulse {
    atom: u16,
    first: u16,
    period: u16,
    width: u16,
}

impl Pulse {
    fn of(bytes: &[u8; 8]) -> Pulse {
        Pulse { atom: field(bytes, 0), first: field(bytes, 2), period: field(bytes, 4), width: field(bytes, 6) }
    }

    fn fits(&self, period: u16) -> bool {
        (self.atom as usize) < ATOMS && self.period != 0 && self.width <= self.period && period.is_multiple_of(self.period)
    }
}

/// Writes the truth of every formula along a run, upwards through the list.
fn truths(formulas: &[Formula], run: &Run, rows: &mut Vec<Row>) {
    let everywhere = below(run.length);
    let atoms = match run.atoms {
        Atoms::Table(words) => table_rows(words),
        Atoms::Pulses(pulses) => pulse_rows(pulses, &everywhere),
    };
    rows.resize(formulas.len(), [0; 4]);
    for (number, formula) in formulas.iter().enumerate() {
        rows[number] = match *formula {
            False => [0; 4],
            Atom(atom) => atoms[atom as usize],
            Implies(left, right) => implies(&rows[left as usize], &rows[right as usize], &everywhere),
            Next(of) => next(&rows[of as usize], run),
            Always(of) => always(&rows[of as usize], run, &everywhere),
        };
    }
}

/// The row with the positions below `end` set.
fn below(end: usize) -> Row {
    std::array::from_fn(|word| match end.saturating_sub(64 * word) {
        bits @ 0..64 => (1 << bits) - 1,
        _ => u64::MAX,
    })
}

fn implies(left: &Row, right: &Row, everywhere: &Row) -> Row {
    std::array::from_fn(|word| (!left[word] | right[word]) & everywhere[word])
}

/// One place down, with the truth at the loop's first position put at its last.
fn next(row: &Row, run: &Run) -> Row {
    let mut moved = [row[0] >> 1 | row[1] << 63, row[1] >> 1 | row[2] << 63, row[2] >> 1 | row[3] << 63, row[3] >> 1];
    let last = run.length - 1;
    moved[last / 64] |= (row[run.stem / 64] >> (run.stem % 64) & 1) << (last % 64);
    moved
}

/// True behind the last position where the row is false; nowhere, if that lies in the loop.
fn always(row: &Row, run: &Run, everywhere: &Row) -> Row {
    let falsity: Row = std::array::from_fn(|word| !row[word] & everywhere[word]);
    let Some(word) = falsity.iter().rposition(|bits| *bits != 0) else {
        return *everywhere;
    };
    let last = 64 * word + falsity[word].ilog2() as usize;
    if last >= run.stem {
        return [0; 4];
    }
    let not_behind = below(last + 1);
    std::array::from_fn(|word| everywhere[word] & !not_behind[word])
}

/// The row of each atom of a table, from squares of 32 positions and 32 atoms.
fn table_rows(words: &[u8]) -> [Row; ATOMS] {
    let mut rows = [[0; 4]; ATOMS];
    for (place, words) in words.as_chunks::<4>().0.chunks(32).enumerate() {
        let mut square: [u32; 32] = std::array::from_fn(|position| words.get(position).map_or(0, |word| u32::from_le_bytes(*word)));
        transpose(&mut square);
        put_square(&mut rows, &square, place);
    }
    rows
}

/// Turns a square of bits about its diagonal: halves of 16 by 16 change places, then within each those of 8 by 8, down to single bits.
fn transpose(square: &mut [u32; 32]) {
    const MASKS: [u32; 5] = [0x0000_FFFF, 0x00FF_00FF, 0x0F0F_0F0F, 0x3333_3333, 0x5555_5555];
    for (step, mask) in MASKS.iter().enumerate() {
        exchange(square, 16 >> step, *mask);
    }
}

fn exchange(square: &mut [u32; 32], width: usize, mask: u32) {
    for lower in (0..32).filter(|row| row & width == 0) {
        let moved = (square[lower] >> width ^ square[lower + width]) & mask;
        square[lower] ^= moved << width;
        square[lower + width] ^= moved;
    }
}

fn put_square(rows: &mut [Row; ATOMS], square: &[u32; 32], place: usize) {
    for (row, bits) in rows.iter_mut().zip(square) {
        row[place / 2] |= u64::from(*bits) << (32 * (place % 2));
    }
}

/// The row of each atom of pulses.
fn pulse_rows(pulses: &[[u8; 8]], everywhere: &Row) -> [Row; ATOMS] {
    let mut rows = [[0; 4]; ATOMS];
    for bytes in pulses {
        let pulse = Pulse::of(bytes);
        rows[pulse.atom as usize] = pulse_row(&pulse, everywhere);
    }
    rows
}

/// One pulse from position 0 on, then doubled until it fills the row, then moved to where it starts.
fn pulse_row(pulse: &Pulse, everywhere: &Row) -> Row {
    let mut row = below(pulse.width as usize);
    let mut filled = pulse.period as usize;
    while filled < POSITIONS_MOST {
        row = either(&row, &up(&row, filled));
        filled *= 2;
    }
    let placed = up(&row, pulse.first as usize);
    std::array::from_fn(|word| placed[word] & everywhere[word])
}

fn either(one: &Row, other: &Row) -> Row {
    std::array::from_fn(|word| one[word] | other[word])
}

/// Moves a row up by less than 256 places.
fn up(row: &Row, places: usize) -> Row {
    let (words, bits) = (places / 64, places % 64);
    let bits_of = |word: usize| word.checked_sub(words).map_or(0, |from| row[from] << bits);
    let carried = |word: usize| word.checked_sub(words + 1).map_or(0, |from| row[from] >> 1 >> (63 - bits));
    std::array::from_fn(|word| bits_of(word) | carried(word))
}

// Tautologies.

/// The first rows are those of prime parts, then comes that of false, and then one for each implication.
const FALSE_ROW: u16 = PARTS_MOST as u16;
const STEPS_FROM: usize = PARTS_MOST + 1;
const WIDEST: usize = 16;

/// What a formula rests on, by way of implications only, and the rows of words that choices are tried in.
/// Nothing in it outlasts a question: as in the checker, each line is decided by itself.
struct Choices {
    needed: [bool; FORMULAS_MOST],
    /// The row of each needed formula.
    rows: [u16; FORMULAS_MOST],
    parts: u16,
    /// The operands of the needed implications by falling number, and later the rows of these.
    steps: Vec<(u16, u16)>,
    words: Vec<u64>,
}

impl Choices {
    fn new() -> Choices {
        Choices {
            needed: [false; FORMULAS_MOST],
            rows: [0; FORMULAS_MOST],
            parts: 0,
            steps: Vec::with_capacity(FORMULAS_MOST),
            words: Vec::with_capacity(WIDEST * (STEPS_FROM + FORMULAS_MOST)),
        }
    }

    /// Whether a formula is a tautology, or none where it has more than twelve prime parts.
    ///
    /// Of the ways that were tried this one is the fastest on a chain and on random sharing, with twelve parts over 1,000 formulas:
    /// - Rows of 16 words, where there are choices enough. With 4 or 8 words there are more passes through the steps, and on a chain each step
    ///   waits for the row that was just stored; with 32 or 64 nothing more is won, and it is slower where operands lie far apart.
    /// - Rows in the order of the steps, whose operands are rows. With rows by the formulas' numbers a step has a third number to look up.
    /// - Falsity, which an implication has by one operation, and-not. Truth takes two.
    /// - Passes over the list to gather the steps. A recursion, 1,000 deep on a chain, costs nearly as much as the rows.
    fn tautology(&mut self, formulas: &[Formula], formula: u16) -> Option<bool> {
        self.gather(&formulas[..=formula as usize])?;
        self.place();
        let row = self.rows[formula as usize] as usize;
        Some(match self.parts {
            0..=8 => self.never_false::<4>(row),
            9 => self.never_false::<8>(row),
            _ => self.never_false::<WIDEST>(row),
        })
    }

    /// Gathers what the last formula rests on, downwards, since operands have lower numbers; none from a thirteenth prime part on.
    fn gather(&mut self, formulas: &[Formula]) -> Option<()> {
        self.parts = 0;
        self.steps.clear();
        self.needed[..formulas.len()].fill(false);
        self.needed[formulas.len() - 1] = true;
        for (number, formula) in formulas.iter().enumerate().rev() {
            if self.needed[number] {
                self.rows[number] = self.row(formula)?;
            }
        }
        Some(())
    }

    /// A row for a needed formula. What it rests on is needed too.
    fn row(&mut self, formula: &Formula) -> Option<u16> {
        match *formula {
            False => Some(FALSE_ROW),
            Implies(left, right) => {
                self.needed[left as usize] = true;
                self.needed[right as usize] = true;
                self.steps.push((left, right));
                Some(FALSE_ROW + self.steps.len() as u16)
            }
            _ if self.parts as usize == PARTS_MOST => None,
            _ => {
                self.parts += 1;
                Some(self.parts - 1)
            }
        }
    }

    /// Has the steps name the rows of operands.
    fn place(&mut self) {
        for (left, right) in &mut self.steps {
            *left = self.rows[*left as usize];
            *right = self.rows[*right as usize];
        }
    }

    /// Whether a row is false under no choice, tried in passes of 64·N choices.
    fn never_false<const N: usize>(&mut self, row: usize) -> bool {
        let count = STEPS_FROM + self.steps.len();
        if self.words.len() < N * count {
            self.words.resize(N * count, 0);
        }
        let rows = &mut self.words.as_chunks_mut::<N>().0[..count];
        rows[FALSE_ROW as usize] = [u64::MAX; N];
        let passes = ((1 << self.parts) / (64 * N)).max(1);
        (0..passes).all(|pass| {
            choose(&mut rows[..self.parts as usize], pass);
            compute(rows, &self.steps);
            rows[row] == [0; N]
        })
    }
}

/// Puts where the prime parts are false under the choices of a pass.
fn choose<const N: usize>(parts: &mut [[u64; N]], pass: usize) {
    for (part, row) in parts.iter_mut().enumerate() {
        *row = std::array::from_fn(|word| !choices(part, N * pass + word));
    }
}

/// Computes where the implications are false, the last step's first.
fn compute<const N: usize>(rows: &mut [[u64; N]], steps: &[(u16, u16)]) {
    for (row, (left, right)) in (STEPS_FROM..rows.len()).zip(steps).rev() {
        let (left, right) = (&rows[*left as usize], &rows[*right as usize]);
        rows[row] = std::array::from_fn(|word| !left[word] & right[word]);
    }
}

/// The truths of a prime part under the 64 choices of a word: those of choice 64·word and on.
fn choices(part: usize, word: usize) -> u64 {
    const LOW: [u64; 6] = [
        0xAAAA_AAAA_AAAA_AAAA,
        0xCCCC_CCCC_CCCC_CCCC,
        0xF0F0_F0F0_F0F0_F0F0,
        0xFF00_FF00_FF00_FF00,
        0xFFFF_0000_FFFF_0000,
        0xFFFF_FFFF_0000_0000,
    ];
    match part {
        0..6 => LOW[part],
        _ => 0u64.wrapping_sub((word >> (part - 6) & 1) as u64),
    }
}

// Writing.

fn written(case: &Case, ending: Ending) -> Vec<u8> {
    let mut text = Vec::with_capacity(20_480);
    let counts = [
        ("formulas ", case.formulas.len()),
        (" assumptions ", case.assumptions.len()),
        (" lines ", case.lines.len()),
        (" refutations ", case.refutations.len()),
    ];
    for (name, count) in counts {
        put(&mut text, name, count);
    }
    standings(&mut text, case);
    match ending {
        Ending::Read(length) => put(&mut text, "\nread ", length),
        Ending::TooLong => text.extend_from_slice(b"\ntoo long"),
        Ending::Refused((layer, number), offset) => {
            put(&mut text, "\nrefused ", layer);
            put(&mut text, " ", number);
            put(&mut text, " ", offset);
        }
    }
    text.push(b'\n');
    text
}

/// A line for each formula that is derived or refuted, with the first line or refutation that states it.
fn standings(text: &mut Vec<u8>, case: &Case) {
    let lines = firsts(&case.lines);
    let refutations = firsts(&case.refutations);
    for number in 0..case.formulas.len() {
        let (word, first) = match (lines[number], refutations[number]) {
            (Some(first), _) => (" derived ", first),
            (None, Some(first)) => (" refuted ", first),
            (None, None) => continue,
        };
        put(text, "\n", number);
        put(text, word, first as usize);
    }
}

/// For each formula the first place where it stands in a list.
fn firsts(list: &[u16]) -> [Option<u16>; FORMULAS_MOST] {
    let mut firsts = [None; FORMULAS_MOST];
    for (place, formula) in list.iter().enumerate().rev() {
        firsts[*formula as usize] = Some(place as u16);
    }
    firsts
}

fn put(text: &mut Vec<u8>, before: &str, number: usize) {
    text.extend_from_slice(before.as_bytes());
    let mut digits = [0; 20];
    let mut rest = number;
    let mut from = digits.len();
    loop {
        from -= 1;
        digits[from] = b'0' + (rest % 10) as u8;
        rest /= 10;
        if rest == 0 {
            break;
        }
    }
    text.extend_from_slice(&digits[from..]);
}
