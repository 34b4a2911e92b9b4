// Files that miss in one place what a rule, a run or an atom must be like.

use super::draft::{Draft, Slips};
use super::shapes::{implies_always, implies_next, implies_sometime, ltl1, ltl2, ltl3};
use crate::records::{field, EMPTY_PLACE, PULSES, TABLE};

pub fn write_misfit(draft: &mut Draft) {
    if draft.random.one_in(4) {
        write_hardly_runs(draft);
    } else {
        write_nearly_rules(draft);
    }
}

// ---- Rules ----

/// A rule's premises and what it gives from them.
struct Instance {
    rule: usize,
    premises: Vec<usize>,
    conclusion: usize,
}

/// Some rules on assumed premises, with a slip in one formula or line of them.
fn write_nearly_rules(draft: &mut Draft) {
    for _ in 0..draft.random.between(2, 6) {
        draft.any_formula(1);
    }
    let count = draft.random.between(1, 5);
    let slips_in_lines = draft.random.one_in(3);
    if !slips_in_lines {
        draft.slips = Slips::After(draft.random.below(12 * count));
    }
    let instances: Vec<Instance> = (0..count).map(|_| instance(draft)).collect();
    for instance in &instances {
        for premise in &instance.premises {
            draft.assume(*premise);
        }
    }
    draft.seal();
    if slips_in_lines {
        draft.slips = Slips::After(draft.random.below(2 * count));
    }
    for instance in &instances {
        use_rule(draft, instance);
    }
}

fn use_rule(draft: &mut Draft, instance: &Instance) {
    let mut places = [None, None];
    for (number, premise) in instance.premises.iter().enumerate() {
        places[number] = Some(draft.line(0, *premise, None, None));
    }
    draft.line(instance.rule, instance.conclusion, places[0], places[1]);
}

fn instance(draft: &mut Draft) -> Instance {
    let (a, b, c) = (draft.any_formula(1), draft.any_formula(1), draft.any_formula(1));
    let rule = draft.random.pick(&[2, 3, 4, 5, 6, 7, 7, 16, 17, 18, 19, 19]);
    let premises = premises(draft, rule, a, b, c);
    let conclusion = conclusion(draft, rule, a, b, c);
    Instance { rule, premises, conclusion }
}

fn premises(draft: &mut Draft, rule: usize, a: usize, b: usize, c: usize) -> Vec<usize> {
    match rule {
        5 => vec![a, draft.implies(a, b)],
        6 | 16 => vec![a],
        7 => vec![draft.implies(a, b), implies_next(draft, a, a)],
        17 => vec![implies_next(draft, a, a)],
        18 => vec![implies_next(draft, a, b)],
        19 => vec![implies_sometime(draft, a, b), implies_sometime(draft, b, c)],
        _ => vec![],
    }
}

fn conclusion(draft: &mut Draft, rule: usize, a: usize, b: usize, c: usize) -> usize {
    match rule {
        2 => ltl1(draft, a),
        3 => ltl2(draft, a, b),
        4 => ltl3(draft, a),
        5 => b,
        6 => draft.next(a),
        7 => implies_always(draft, a, b),
        16 => draft.always(a),
        17 => implies_always(draft, a, a),
        18 => implies_sometime(draft, a, b),
        _ => implies_sometime(draft, a, c),
    }
}

// ---- Runs ----

/// Refutations of false by runs of small fields at their limits, and atoms at theirs.
fn write_hardly_runs(draft: &mut Draft) {
    draft.falsehood();
    if draft.random.one_in(4) {
        let atom = draft.random.between(30, 33);
        draft.atom(atom);
    }
    draft.seal();
    for _ in 0..draft.random.between(1, 6) {
        let claim = [draft.random.pick(&[0, 0, 0, 0, 0, 0, 1, 1_000]), draft.random.pick(&[0, 0, 0, 1, 2, 3])];
        if draft.random.one_in(3) { hardly_table(draft, claim) } else { hardly_pulses(draft, claim) }
    }
}

/// Sometimes the loop has no position, and sometimes there is a word too many or too few.
fn hardly_table(draft: &mut Draft, claim: [usize; 2]) {
    let stem = draft.random.pick(&[0, 1, 2, 3, EMPTY_PLACE]);
    let loop_length = draft.random.pick(&[0, 1, 1, 1, 2, 2, EMPTY_PLACE]);
    let words = (stem + loop_length) % 8;
    let more = draft.random.pick(&[0, 0, 0, 0, 0, 1, 4]);
    let payload = [claim.map(field).concat(), [stem, loop_length].map(field).concat(), vec![0; 4 * words + more]].concat();
    draft.record(TABLE, &payload);
}

/// Mostly pulses that are right but for one field of one of them.
fn hardly_pulses(draft: &mut Draft, claim: [usize; 2]) {
    let loop_length = draft.random.pick(&[0, 1, 2, 6, 6, 6, 6, 6, 6, 12]);
    let mut payload = [claim.map(field).concat(), field(loop_length).to_vec()].concat();
    let mut atom = draft.random.pick(&[0, 5, 29, 31]);
    for _ in 0..draft.random.below(4) {
        let period = draft.random.pick(&[1, 2, 2, 3, 3, 6, 6, 0, 4]);
        let width = if draft.random.one_in(8) { period + 1 } else { draft.random.below(period + 1) };
        let first = draft.random.pick(&[0, 0, 1, 2, 3, 250, 255]);
        payload.extend([atom, first, period, width].map(field).concat());
        atom += draft.random.pick(&[0, 1, 1, 1, 1, 1, 2]);
    }
    draft.record(PULSES, &payload);
}
