// Files at the limits and beyond them, and files of formulas that share their parts deeply.

use super::draft::Draft;
use super::edges::write_edges;
use super::runs::{any_run, run_with, RunBytes, POSITIONS_MOST};
use super::steps::{axiom_line, axiom_line_of, conclude, conclude_from, derive, refute, refute_by, tautology_line, true_throughout};
use crate::plain::Formula;
use crate::records::{field, kind_of, LINE, TABLE};

/// A file that comes near one of the limits, reaches it or passes it.
pub fn write_full(draft: &mut Draft) {
    match draft.random.below(11) {
        0 => fill_formulas(draft),
        1 => fill_assumptions(draft),
        2 => fill_lines(draft),
        3 => fill_refutations(draft),
        4 | 5 => lengthen_runs(draft),
        6 | 7 => fill_prime_parts(draft),
        8 | 9 => write_edges(draft),
        _ => fill_file(draft),
    }
}

// ---- Formulas ----

fn fill_formulas(draft: &mut Draft) {
    let count = draft.random.pick(&[1_022, 1_023, 1_024, 1_024, 1_024, 1_025, 1_026]);
    let sealed_at = draft.random.pick(&[1_024, 1_024, 1_000, 500, 2]);
    let model = any_run(&mut draft.random);
    add_formulas(draft, sealed_at.min(count));
    assume_one(draft, &model);
    draft.seal();
    add_formulas(draft, count);
    for _ in 0..draft.random.between(2, 20) {
        use_full_list(draft, &model);
    }
}

/// Enters formulas until there are so many.
fn add_formulas(draft: &mut Draft, count: usize) {
    while draft.formulas.len() < count {
        draft.any_formula(1);
        let first = draft.random.below(draft.formulas.len());
        let second = draft.random.below(draft.formulas.len());
        match draft.random.below(4) {
            0 => draft.next(first),
            1 => draft.always(first),
            2 => draft.implies(first, first),
            _ => draft.implies(first, second),
        };
    }
}

/// Mostly something that needs no new formula; any formula that is there may be entered again.
fn use_full_list(draft: &mut Draft, model: &RunBytes) {
    match draft.random.below(40) {
        0..=9 => refute(draft, model),
        10..=19 => {
            let number = draft.random.below(draft.formulas.len());
            draft.form_again(number);
        }
        20..=38 => restate(draft),
        _ => derive(draft),
    }
}

/// A line A → A that is there already, or an assumption.
fn restate(draft: &mut Draft) {
    let is_plain = |formula: &Formula| matches!(formula, Formula::Implies(left, right) if left == right);
    let plain_ones: Vec<usize> = (0..draft.formulas.len()).filter(|number| is_plain(&draft.formulas[*number])).collect();
    if !draft.assumptions.is_empty() && draft.random.one_in(2) {
        draft.line(0, draft.assumptions[0], None, None);
    } else if !plain_ones.is_empty() {
        let formula = draft.random.pick(&plain_ones);
        draft.line(1, formula, None, None);
    }
}

// ---- Assumptions ----

fn fill_assumptions(draft: &mut Draft) {
    let count = draft.random.pick(&[15, 16, 16, 16, 17, 18]);
    let model = any_run(&mut draft.random);
    let always_true = draft.random.between(8, 15);
    for assumption in true_ones(draft, &model, always_true, count) {
        draft.assume(assumption);
    }
    for _ in 0..draft.random.below(4) {
        let again = draft.random.below(draft.assumptions.len());
        draft.assume(draft.assumptions[again]);
    }
    draft.seal();
    for number in 0..draft.assumptions.len() {
        draft.line(0, draft.assumptions[number], None, None);
    }
    for _ in 0..4 {
        refute(draft, &model);
    }
    let other = any_run(&mut draft.random);
    other.claim(draft, 0, 0);
}

/// As many formulas that are true throughout the run. The first ones are so on every run, so that the last ones have to be looked at.
fn true_ones(draft: &mut Draft, model: &RunBytes, always_true: usize, count: usize) -> Vec<usize> {
    let mut chosen = Vec::new();
    while chosen.len() < always_true {
        let formula = draft.any_formula(2);
        let tautology = draft.implies(formula, formula);
        add_new(&mut chosen, tautology);
    }
    while chosen.len() < count {
        draft.any_formula(2);
        let candidates = true_throughout(draft, model);
        if !candidates.is_empty() {
            let formula = draft.random.pick(&candidates);
            add_new(&mut chosen, formula);
        }
    }
    chosen
}

fn add_new(chosen: &mut Vec<usize>, formula: usize) {
    if !chosen.contains(&formula) {
        chosen.push(formula);
    }
}

// ---- Lines ----

fn fill_lines(draft: &mut Draft) {
    let count = draft.random.between(509, 514);
    let model = any_run(&mut draft.random);
    draft.any_formula(2);
    draft.seal();
    for _ in 0..6 {
        axiom_line(draft);
        tautology_line(draft);
    }
    while draft.lines.len() < count {
        let again = draft.random.below(10);
        restate_line(draft, again);
    }
    let last = draft.lines.len() - 1;
    match draft.random.below(6) {
        0 => conclude_from(draft, 6, last),
        1 => conclude_from(draft, 16, last - 1),
        2 => draft.line(5, 0, Some(draft.lines.len()), None),
        3 => draft.line(1, draft.formulas.len(), None, None),
        4 => draft.line(0, 0, None, None),
        _ => tautology_line(draft),
    };
    refute(draft, &model);
}

/// The record of an early line once more.
fn restate_line(draft: &mut Draft, number: usize) {
    let is_line = |record: &&Vec<u8>| kind_of(record) == LINE;
    let record = draft.records.iter().filter(is_line).nth(number).expect("these lines are there").clone();
    draft.records.push(record);
    draft.lines.push(draft.lines[number]);
}

// ---- Refutations ----

fn fill_refutations(draft: &mut Draft) {
    let count = draft.random.between(62, 66);
    let positions = draft.random.between(1, 6);
    let model = run_with(&mut draft.random, positions);
    draft.falsehood();
    for _ in 0..draft.random.between(1, 6) {
        draft.any_formula(3);
    }
    draft.seal();
    for _ in 0..count {
        refute(draft, &model);
    }
    let (formula, position) = (draft.random.below(draft.formulas.len() + 2), draft.random.below(positions + 2));
    model.claim(draft, formula, position);
    tautology_line(draft);
}

// ---- Positions ----

/// Runs that end near the last position that a run may have, and positions near the run's end.
fn lengthen_runs(draft: &mut Draft) {
    for _ in 0..draft.random.between(2, 20) {
        draft.any_formula(3);
    }
    draft.falsehood();
    draft.seal();
    for _ in 0..draft.random.between(1, 8) {
        let positions = if draft.random.one_in(8) { draft.random.between(257, 260) } else { draft.random.between(253, POSITIONS_MOST) };
        let run = run_with(&mut draft.random, positions);
        if positions <= POSITIONS_MOST && !draft.random.one_in(6) {
            refute_by(draft, &run);
        } else {
            let position = draft.random.pick(&[0, 255, 256, positions - 1, positions, positions + 1]);
            let formula = draft.random.below(draft.formulas.len() + 1);
            run.claim(draft, formula, position);
        }
    }
}

// ---- Prime parts ----

/// Lines by rule 1 on formulas of about twelve prime parts that no choice, or a single one, makes false.
fn fill_prime_parts(draft: &mut Draft) {
    draft.any_formula(1);
    draft.seal();
    for _ in 0..draft.random.between(1, 6) {
        let count = if draft.random.one_in(10) { draft.random.between(13, 40) } else { draft.random.pick(&[8, 9, 10, 11, 11, 12, 12, 12]) };
        let formula = clause(draft, count);
        let rule = if draft.random.one_in(20) { draft.random.below(8) } else { 1 };
        let place = if draft.random.one_in(20) { draft.lines.first().map(|_| 0) } else { None };
        draft.line(rule, formula, place, None);
    }
}

/// P1 → (P2 → ... → (Pn → C)), where each is a prime part or not one, and C one of them again, or false.
fn clause(draft: &mut Draft, count: usize) -> usize {
    let parts = prime_parts(draft, count);
    // Where C is false, a single choice makes the formula false: the first one, the last one, or any.
    let negated_of_four = draft.random.pick(&[0, 4, 2, 2]);
    let mut literals = Vec::new();
    for part in parts {
        let literal = if draft.random.below(4) < negated_of_four { draft.not(part) } else { part };
        literals.push(literal);
    }
    let chosen = draft.random.below(count);
    let mut formula = if draft.random.one_in(2) { draft.falsehood() } else { literals[chosen] };
    draft.random.shuffle(&mut literals);
    for literal in literals {
        formula = draft.implies(literal, formula);
    }
    formula
}

/// Formulas that are no implications and not false, all different.
fn prime_parts(draft: &mut Draft, count: usize) -> Vec<usize> {
    let mut parts = Vec::new();
    while parts.len() < count {
        let operand = draft.any_formula(1);
        let atom = draft.random.below(32);
        let part = match draft.random.below(4) {
            0 => draft.next(operand),
            1 => draft.always(operand),
            _ => draft.atom(atom),
        };
        if !parts.contains(&part) {
            parts.push(part);
        }
    }
    parts
}

// ---- Length ----

/// A file whose last record ends near the most bytes that a file may have.
fn fill_file(draft: &mut Draft) {
    let length = draft.random.pick(&[16_376, 16_380, 16_383, 16_384, 16_384, 16_384, 16_385, 16_388, 20_000]);
    draft.falsehood();
    draft.any_formula(1);
    draft.seal();
    // The last record is a table, which has 12 bytes and 4 for each word.
    while length - draft.length() > 12 + 4 * 200 || !(length - draft.length()).is_multiple_of(4) {
        let number = draft.random.below(draft.formulas.len());
        draft.form_again(number);
    }
    let words = (length - draft.length() - 12) / 4;
    let position = draft.random.below(words);
    let payload = [[0, position, 0, words].map(field).concat(), vec![0; 4 * words]].concat();
    draft.record(TABLE, &payload);
}

// ---- Sharing ----

/// A chain of formulas each of which uses the one before, mostly twice, with lines and refutations on its last ones.
pub fn write_sharing(draft: &mut Draft) {
    let model = any_run(&mut draft.random);
    let depth = draft.random.pick(&[10, 60, 200, 600, 1_000]);
    let base = draft.random.pick(&[1, 1, 2, 5, 11, 12, 13]);
    let links = draft.random.below(5);
    let mut last = clause(draft, base);
    if draft.random.one_in(2) {
        draft.seal();
        last = add_links(draft, last, depth, links);
    } else {
        last = add_links(draft, last, depth, links);
        assume_one(draft, &model);
        draft.seal();
    }
    for _ in 0..draft.random.between(1, 6) {
        use_chain(draft, last, &model);
    }
}

fn assume_one(draft: &mut Draft, model: &RunBytes) {
    let true_ones = true_throughout(draft, model);
    if !true_ones.is_empty() {
        let assumption = draft.random.pick(&true_ones);
        draft.assume(assumption);
    }
}

/// The last formula of a chain on that one. Some chains have one kind of link only, others have all.
fn add_links(draft: &mut Draft, first: usize, depth: usize, links: usize) -> usize {
    let (mut before, mut last) = (first, first);
    while draft.formulas.len() < depth {
        let link = if links < 3 { links } else { draft.random.below(6) };
        let longer = match link {
            0 => draft.implies(last, last),
            1 => draft.implies(last, before),
            2 => draft.next(last),
            3 => draft.always(last),
            4 => draft.implies(before, last),
            _ => draft.not(last),
        };
        (before, last) = (last, longer);
    }
    last
}

fn use_chain(draft: &mut Draft, last: usize, model: &RunBytes) {
    let near = last - draft.random.below(last.min(4) + 1);
    match draft.random.below(7) {
        0 => refute(draft, model),
        1 => {
            draft.line(1, last, None, None);
        }
        2 => {
            axiom_line_of(draft, last, near);
        }
        3 => {
            let other = any_run(&mut draft.random);
            refute_by(draft, &other);
        }
        _ => derive_on(draft, last, near),
    }
}

/// By rules 1, 5, 6 and 16: A → A, and what follows from that for a deep A.
fn derive_on(draft: &mut Draft, last: usize, near: usize) {
    let formula = draft.implies(near, near);
    let first = draft.line(1, formula, None, None);
    let back = draft.implies(last, formula);
    let step = draft.implies(formula, back);
    let second = draft.line(1, step, None, None);
    let third = conclude(draft, 5, first, second);
    conclude_from(draft, 6, third);
    conclude_from(draft, 16, third);
}
