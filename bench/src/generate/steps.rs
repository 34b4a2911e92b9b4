// Derivations and refutations that hold: each rule is used on lines that were derived for it before.

use super::draft::Draft;
use super::runs::{any_run, written_longer, RunBytes};
use super::shapes::{implies_always, implies_next, implies_sometime, ltl1, ltl2, ltl3};
use crate::plain::{self, Formula};

/// A file with forms, assumptions, a seal and as many derivations and refutations, as far as there is room.
pub fn write_good(draft: &mut Draft, steps: usize, room: usize) {
    let model = any_run(&mut draft.random);
    write_front(draft, &model);
    draft.seal();
    for _ in 0..steps {
        if draft.length() < room {
            step(draft, &model);
        }
    }
    if draft.random.one_in(2) {
        draft.put_forms_first();
    }
}

fn step(draft: &mut Draft, model: &RunBytes) {
    if draft.random.one_in(5) {
        refute(draft, model);
    } else {
        derive(draft);
    }
}

/// Formulas, and assumptions that are true throughout the run, so that there is something to refute.
fn write_front(draft: &mut Draft, model: &RunBytes) {
    for _ in 0..draft.random.between(1, 8) {
        draft.any_formula(3);
    }
    if draft.random.one_in(2) {
        for _ in 0..4 {
            let kept = draft.any_formula(1);
            let next = draft.next(kept);
            draft.implies(kept, next);
        }
    }
    let true_ones = true_throughout(draft, model);
    for _ in 0..draft.random.below(4) {
        if !true_ones.is_empty() {
            let assumption = draft.random.pick(&true_ones);
            draft.assume(assumption);
        }
    }
    if draft.slip() {
        let assumption = draft.random.below(draft.formulas.len());
        draft.assume(assumption);
    }
}

pub fn true_throughout(draft: &Draft, run: &RunBytes) -> Vec<usize> {
    let truths = plain::truths(&draft.formulas, &run.run());
    (0..draft.formulas.len()).filter(|formula| !truths[*formula].contains(&false)).collect()
}

// ---- Refutations ----

/// Refutes a formula by the run, the same run written longer, or another run, if that can be done.
pub fn refute(draft: &mut Draft, model: &RunBytes) {
    match draft.random.below(4) {
        0 => {
            let longer = written_longer(&mut draft.random, &model.run());
            refute_by(draft, &longer);
        }
        1 => {
            let other = any_run(&mut draft.random);
            refute_by(draft, &other);
        }
        _ => refute_by(draft, model),
    }
}

pub fn refute_by(draft: &mut Draft, run: &RunBytes) {
    if draft.slip() {
        let formula = draft.random.below(draft.formulas.len());
        let position = draft.random.below(run.run().positions() + 2);
        return run.claim(draft, formula, position);
    }
    let truths = plain::truths(&draft.formulas, &run.run());
    let keeps_assumptions = draft.assumptions.iter().all(|assumption| !truths[*assumption].contains(&false));
    let false_ones: Vec<usize> = (0..truths.len()).filter(|formula| truths[*formula].contains(&false)).collect();
    if keeps_assumptions && !false_ones.is_empty() {
        let formula = draft.random.pick(&false_ones);
        let positions: Vec<usize> = (0..truths[formula].len()).filter(|position| !truths[formula][*position]).collect();
        let position = draft.random.pick(&positions);
        run.claim(draft, formula, position);
    }
}

// ---- Derivations ----

/// Adds a line by one of the rules, and the lines that it needs.
pub fn derive(draft: &mut Draft) {
    match draft.random.below(14) {
        0 => assumption_line(draft),
        1 => tautology_line(draft),
        2..=4 => axiom_line(draft),
        5 => weakened_line(draft),
        6 => nex_line(draft),
        7 => ind_line(draft),
        8 => alw_line(draft),
        9 => ind1_line(draft),
        10 => som_line(draft),
        11 | 12 => chain_line(draft),
        _ => line_by_chance(draft),
    };
}

fn assumption_line(draft: &mut Draft) -> usize {
    if draft.assumptions.is_empty() {
        return tautology_line(draft);
    }
    let assumption = draft.assumptions[draft.random.below(draft.assumptions.len())];
    draft.line(0, assumption, None, None)
}

pub fn tautology_line(draft: &mut Draft) -> usize {
    let formula = any_tautology(draft);
    draft.line(1, formula, None, None)
}

fn any_tautology(draft: &mut Draft) -> usize {
    let (a, b, c) = (draft.any_formula(2), draft.any_formula(2), draft.any_formula(1));
    match draft.random.below(10) {
        0 => draft.implies(a, a),
        1 => weakening(draft, a, b),
        2 => distribution(draft, a, b, c),
        3 => {
            let not_a = draft.not(a);
            let not_not_a = draft.not(not_a);
            draft.equivalence(a, not_not_a)
        }
        4 => {
            let (not_a, not_b) = (draft.not(a), draft.not(b));
            let (left, right) = (draft.implies(not_a, not_b), draft.implies(b, a));
            draft.implies(left, right)
        }
        5 => {
            let a_to_b = draft.implies(a, b);
            let back = draft.implies(a_to_b, a);
            draft.implies(back, a)
        }
        6 => {
            let both = draft.and(a, b);
            draft.implies(both, b)
        }
        7 => tautology_found(draft),
        _ => {
            let falsehood = draft.falsehood();
            draft.implies(falsehood, a)
        }
    }
}

/// A → (B → A)
fn weakening(draft: &mut Draft, a: usize, b: usize) -> usize {
    let b_to_a = draft.implies(b, a);
    draft.implies(a, b_to_a)
}

/// (A → (B → C)) → ((A → B) → (A → C))
fn distribution(draft: &mut Draft, a: usize, b: usize, c: usize) -> usize {
    let b_to_c = draft.implies(b, c);
    let left = draft.implies(a, b_to_c);
    let (a_to_b, a_to_c) = (draft.implies(a, b), draft.implies(a, c));
    let right = draft.implies(a_to_b, a_to_c);
    draft.implies(left, right)
}

/// One of the formulas entered that happens to be a tautology, or the plainest one.
fn tautology_found(draft: &mut Draft) -> usize {
    let found = (0..draft.formulas.len()).rev().take(20).find(|formula| plain::is_tautology(&draft.formulas, *formula) == Some(true));
    found.unwrap_or_else(|| {
        let falsehood = draft.falsehood();
        draft.implies(falsehood, falsehood)
    })
}

pub fn axiom_line(draft: &mut Draft) -> usize {
    let (a, b) = (draft.any_formula(2), draft.any_formula(2));
    axiom_line_of(draft, a, b)
}

/// A line by ltl1, ltl2 or ltl3 on A and B.
pub fn axiom_line_of(draft: &mut Draft, a: usize, b: usize) -> usize {
    let rule = draft.random.between(2, 4);
    let formula = match rule {
        2 => ltl1(draft, a),
        3 => ltl2(draft, a, b),
        _ => ltl3(draft, a),
    };
    draft.line(rule, formula, None, None)
}

/// Any held line.
fn held(draft: &mut Draft) -> usize {
    if draft.lines.is_empty() { tautology_line(draft) } else { draft.random.below(draft.lines.len()) }
}

/// From A to B → A, for any B.
fn weakened_line(draft: &mut Draft) -> usize {
    let place = held(draft);
    let b = draft.any_formula(2);
    weaken(draft, place, b)
}

fn weaken(draft: &mut Draft, place: usize, b: usize) -> usize {
    let a = draft.lines[place];
    let formula = weakening(draft, a, b);
    let step = draft.line(1, formula, None, None);
    conclude(draft, 5, place, step)
}

fn nex_line(draft: &mut Draft) -> usize {
    let place = held(draft);
    conclude_from(draft, 6, place)
}

fn alw_line(draft: &mut Draft) -> usize {
    let place = held(draft);
    conclude_from(draft, 16, place)
}

/// A line A → ○A, for an assumed, a derived, an impossible or a lasting A.
fn kept_line(draft: &mut Draft) -> usize {
    match draft.random.below(4) {
        0 => kept_assumption_line(draft),
        1 => {
            let place = held(draft);
            let next = conclude_from(draft, 6, place);
            let kept = draft.lines[place];
            weaken(draft, next, kept)
        }
        2 => lasting_line(draft),
        _ => impossible_line(draft),
    }
}

fn kept_assumption_line(draft: &mut Draft) -> usize {
    let kept = draft.assumptions.iter().copied().find(|assumption| is_kept(draft, *assumption));
    match kept {
        Some(assumption) => draft.line(0, assumption, None, None),
        None => impossible_line(draft),
    }
}

/// Whether the formula is A → ○A.
fn is_kept(draft: &Draft, formula: usize) -> bool {
    match draft.formulas[formula] {
        Formula::Implies(left, right) => draft.formulas[right] == Formula::Next(left),
        _ => false,
    }
}

/// false → ○false
fn impossible_line(draft: &mut Draft) -> usize {
    let falsehood = draft.falsehood();
    let formula = implies_next(draft, falsehood, falsehood);
    draft.line(1, formula, None, None)
}

/// □A → ○□A, from □A → (A ∧ ○□A).
fn lasting_line(draft: &mut Draft) -> usize {
    let a = draft.any_formula(1);
    let axiom = ltl3(draft, a);
    let first = draft.line(4, axiom, None, None);
    let always_a = draft.always(a);
    let formula = implies_next(draft, always_a, always_a);
    let step = draft.implies(axiom, formula);
    let second = draft.line(1, step, None, None);
    conclude(draft, 5, first, second)
}

/// By ind from A → B, a tautology, and A → ○A.
fn ind_line(draft: &mut Draft) -> usize {
    let kept = kept_line(draft);
    let Formula::Implies(a, _) = draft.formulas[draft.lines[kept]] else { return kept };
    let c = draft.any_formula(2);
    let b = if draft.random.one_in(3) { a } else { draft.implies(c, a) };
    let tautology = draft.implies(a, b);
    let first = draft.line(1, tautology, None, None);
    conclude(draft, 7, first, kept)
}

fn ind1_line(draft: &mut Draft) -> usize {
    let kept = kept_line(draft);
    conclude_from(draft, 17, kept)
}

fn som_line(draft: &mut Draft) -> usize {
    if draft.random.one_in(2) {
        let kept = kept_line(draft);
        return conclude_from(draft, 18, kept);
    }
    let place = held(draft);
    let a = draft.any_formula(2);
    arrives_line(draft, a, place)
}

/// A → ◇B, for any A, where B is held.
fn arrives_line(draft: &mut Draft, a: usize, place: usize) -> usize {
    let next = conclude_from(draft, 6, place);
    let step = weaken(draft, next, a);
    conclude_from(draft, 18, step)
}

/// By chain from A → ◇B and B → ◇C, where B and C are held.
fn chain_line(draft: &mut Draft) -> usize {
    let a = draft.any_formula(1);
    let (middle, last) = (held(draft), held(draft));
    let first = arrives_line(draft, a, middle);
    let b = draft.lines[middle];
    let second = arrives_line(draft, b, last);
    conclude(draft, 19, first, second)
}

/// A line from two that are held, by a rule that they happen to be premises of.
fn line_by_chance(draft: &mut Draft) -> usize {
    for _ in 0..40 {
        let (first, second) = (held(draft), held(draft));
        let rule = draft.random.pick(&[5, 7, 17, 18, 19]);
        if let Some(formula) = conclusion(draft, rule, first, second) {
            let second = if rule == 17 || rule == 18 { None } else { Some(second) };
            return draft.line(rule, formula, Some(first), second);
        }
    }
    tautology_line(draft)
}

pub fn conclude_from(draft: &mut Draft, rule: usize, place: usize) -> usize {
    let formula = conclusion(draft, rule, place, place).unwrap_or(draft.lines[place]);
    draft.line(rule, formula, Some(place), None)
}

/// A line by the rule from two premises. After a slip they may give nothing, and the line is no good one either.
pub fn conclude(draft: &mut Draft, rule: usize, first: usize, second: usize) -> usize {
    let formula = conclusion(draft, rule, first, second).unwrap_or(draft.lines[first]);
    draft.line(rule, formula, Some(first), Some(second))
}

/// What the rule gives from the formulas on two lines, the second of which may not matter.
fn conclusion(draft: &mut Draft, rule: usize, first: usize, second: usize) -> Option<usize> {
    let (first, second) = (draft.lines[first], draft.lines[second]);
    match rule {
        6 => return Some(draft.next(first)),
        16 => return Some(draft.always(first)),
        _ => {}
    }
    let from_first = implication(draft, first);
    let from_second = implication(draft, second);
    match (rule, from_first, from_second) {
        (5, _, Some((a, b))) if a == first => Some(b),
        (7, Some((a, b)), Some((kept, next))) if a == kept && draft.formulas[next] == Formula::Next(a) => {
            Some(implies_always(draft, a, b))
        }
        (17, Some((a, next)), _) if draft.formulas[next] == Formula::Next(a) => Some(implies_always(draft, a, a)),
        (18, Some((a, next)), _) => {
            let Formula::Next(b) = draft.formulas[next] else { return None };
            Some(implies_sometime(draft, a, b))
        }
        (19, Some((a, sometime_b)), Some((b, sometime_c))) if sometime(draft, sometime_b) == Some(b) => {
            sometime(draft, sometime_c)?;
            Some(draft.implies(a, sometime_c))
        }
        _ => None,
    }
}

fn implication(draft: &Draft, formula: usize) -> Option<(usize, usize)> {
    match draft.formulas[formula] {
        Formula::Implies(left, right) => Some((left, right)),
        _ => None,
    }
}

/// A, where the formula is ◇A, which is ((□(A → false)) → false).
fn sometime(draft: &Draft, formula: usize) -> Option<usize> {
    let negated = |formula| implication(draft, formula).filter(|(_, right)| draft.formulas[*right] == Formula::False).map(|(left, _)| left);
    match draft.formulas[negated(formula)?] {
        Formula::Always(never) => negated(never),
        _ => None,
    }
}
