// A case file as it is being drafted, with what its case will hold if nothing in it is refused.

use crate::plain::Formula;
use crate::random::Random;
use crate::records::{self, field, kind_of, ASSUME, EMPTY_PLACE, FORM, LINE, RULES, SEAL};

pub struct Draft {
    pub random: Random,
    pub formulas: Vec<Formula>,
    pub assumptions: Vec<usize>,
    /// The formula on each line.
    pub lines: Vec<usize>,
    pub records: Vec<Vec<u8>>,
    pub slips: Slips,
}

/// Which of the formulas, lines and refutations that are built are other ones than was meant.
pub enum Slips {
    Never,
    /// One in as many, on an average.
    OneIn(usize),
    /// The one behind as many others, and no more.
    After(usize),
}

impl Draft {
    pub fn new(seed: u64) -> Draft {
        let random = Random::new(seed);
        Draft { random, formulas: Vec::new(), assumptions: Vec::new(), lines: Vec::new(), records: Vec::new(), slips: Slips::Never }
    }

    // ---- Records ----

    pub fn record(&mut self, kind: u16, payload: &[u8]) {
        self.records.push(records::record(kind, payload));
    }

    fn form(&mut self, formula: Formula) {
        let (kind, left, right) = match formula {
            Formula::False => (0, 0, 0),
            Formula::Atom(atom) => (1, atom as usize, 0),
            Formula::Implies(left, right) => (2, left, right),
            Formula::Next(operand) => (3, operand, 0),
            Formula::Always(operand) => (4, operand, 0),
        };
        self.record(FORM, &records::form(kind, left, right));
    }

    /// The form record of a formula that is entered already.
    pub fn form_again(&mut self, number: usize) {
        self.form(self.formulas[number]);
    }

    pub fn assume(&mut self, formula: usize) {
        if !self.assumptions.contains(&formula) {
            self.assumptions.push(formula);
        }
        self.record(ASSUME, &field(formula));
    }

    pub fn seal(&mut self) {
        self.record(SEAL, &[]);
    }

    /// A line, and its number.
    pub fn line(&mut self, rule: usize, formula: usize, first: Option<usize>, second: Option<usize>) -> usize {
        let mut fields = [rule, formula, first.unwrap_or(EMPTY_PLACE), second.unwrap_or(EMPTY_PLACE)];
        if self.slip() {
            self.turn_line(&mut fields);
        }
        self.record(LINE, &fields.map(field).concat());
        self.lines.push(formula);
        self.lines.len() - 1
    }

    fn turn_line(&mut self, fields: &mut [usize; 4]) {
        let held = if self.lines.is_empty() { EMPTY_PLACE } else { self.random.below(self.lines.len()) };
        let place = if self.random.one_in(3) { EMPTY_PLACE } else { held };
        match self.random.below(8) {
            0 => fields[0] = self.other_rule(fields[0]),
            1 => fields[1] = self.random.below(self.formulas.len()),
            2 | 3 => fields[2] = place,
            4 | 5 => fields[3] = place,
            _ => fields.swap(2, 3),
        }
    }

    fn other_rule(&mut self, rule: usize) -> usize {
        let other = self.random.pick(&RULES);
        self.random.pick(&[other, other, rule + 1, rule + 8, rule + 256])
    }

    /// Puts all forms before all other records. Formulas keep their numbers, since forms keep their order.
    pub fn put_forms_first(&mut self) {
        self.records.sort_by_key(|record| kind_of(record) != FORM);
    }

    pub fn length(&self) -> usize {
        self.records.iter().map(Vec::len).sum()
    }

    pub fn file(&self) -> Vec<u8> {
        self.records.concat()
    }

    // ---- Slips ----

    pub fn slip(&mut self) -> bool {
        match self.slips {
            Slips::Never => false,
            Slips::OneIn(count) => self.random.one_in(count),
            Slips::After(others) => {
                self.slips = if others == 0 { Slips::Never } else { Slips::After(others - 1) };
                others == 0
            }
        }
    }

    /// A formula that is nearly the one that was meant.
    fn turned(&mut self, formula: Formula) -> Formula {
        let other = if self.formulas.is_empty() { 0 } else { self.random.below(self.formulas.len()) };
        match (formula, self.random.below(3)) {
            (Formula::Implies(left, right), 0) => Formula::Implies(right, left),
            (Formula::Implies(left, _), 1) => Formula::Implies(left, other),
            (Formula::Implies(_, right), _) => Formula::Implies(other, right),
            (Formula::Next(operand), 0) => Formula::Always(operand),
            (Formula::Next(_), _) => Formula::Next(other),
            (Formula::Always(operand), 0) => Formula::Next(operand),
            (Formula::Always(_), _) => Formula::Always(other),
            (Formula::False | Formula::Atom(_), atom) => Formula::Atom(atom as u16),
        }
    }

    // ---- Formulas ----

    /// The number of a formula, which is entered if it is new, and sometimes also if it is not.
    pub fn enter(&mut self, formula: Formula) -> usize {
        let known = self.formulas.iter().position(|entered| *entered == formula);
        if known.is_none() || self.random.one_in(16) {
            self.form(formula);
        }
        known.unwrap_or_else(|| {
            self.formulas.push(formula);
            self.formulas.len() - 1
        })
    }

    fn built(&mut self, formula: Formula) -> usize {
        let formula = if self.slip() { self.turned(formula) } else { formula };
        self.enter(formula)
    }

    pub fn falsehood(&mut self) -> usize {
        self.built(Formula::False)
    }

    pub fn atom(&mut self, atom: usize) -> usize {
        self.built(Formula::Atom(atom as u16))
    }

    pub fn implies(&mut self, left: usize, right: usize) -> usize {
        self.built(Formula::Implies(left, right))
    }

    pub fn next(&mut self, operand: usize) -> usize {
        self.built(Formula::Next(operand))
    }

    pub fn always(&mut self, operand: usize) -> usize {
        self.built(Formula::Always(operand))
    }

    pub fn not(&mut self, formula: usize) -> usize {
        let falsehood = self.falsehood();
        self.implies(formula, falsehood)
    }

    pub fn and(&mut self, left: usize, right: usize) -> usize {
        let not_right = self.not(right);
        let not_both = self.implies(left, not_right);
        self.not(not_both)
    }

    pub fn equivalence(&mut self, left: usize, right: usize) -> usize {
        let there = self.implies(left, right);
        let back = self.implies(right, left);
        self.and(there, back)
    }

    pub fn sometime(&mut self, formula: usize) -> usize {
        let not_formula = self.not(formula);
        let never = self.always(not_formula);
        self.not(never)
    }

    /// A formula of at most that depth over what is entered, mostly over few atoms.
    pub fn any_formula(&mut self, depth: usize) -> usize {
        if depth == 0 || self.random.one_in(3) {
            return self.leaf();
        }
        let left = self.any_formula(depth - 1);
        match self.random.below(10) {
            0..=3 => {
                let right = self.any_formula(depth - 1);
                self.implies(left, right)
            }
            4 | 5 => self.next(left),
            6 | 7 => self.always(left),
            8 => self.sometime(left),
            _ => self.not(left),
        }
    }

    fn leaf(&mut self) -> usize {
        match self.random.below(8) {
            0 => self.falsehood(),
            1 => {
                let atom = self.random.below(32);
                self.atom(atom)
            }
            2..=4 if !self.formulas.is_empty() => self.random.below(self.formulas.len()),
            _ => {
                let atom = self.random.below(3);
                self.atom(atom)
            }
        }
    }
}
