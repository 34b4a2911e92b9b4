// The axioms, and the shapes of premises and conclusions, with parts built anew where they are met, so that a slip is in one place.

use super::draft::Draft;

pub fn implies_next(draft: &mut Draft, left: usize, operand: usize) -> usize {
    let next = draft.next(operand);
    draft.implies(left, next)
}

pub fn implies_always(draft: &mut Draft, left: usize, operand: usize) -> usize {
    let always = draft.always(operand);
    draft.implies(left, always)
}

pub fn implies_sometime(draft: &mut Draft, left: usize, operand: usize) -> usize {
    let sometime = draft.sometime(operand);
    draft.implies(left, sometime)
}

/// (X → Y) ∧ (Y → X), where X is ¬○A and Y is ○¬A. Sometimes a slip in X or Y is in both of their places.
pub fn ltl1(draft: &mut Draft, a: usize) -> usize {
    let (left, right) = (not_next(draft, a), next_not(draft, a));
    if draft.random.one_in(2) {
        return draft.equivalence(left, right);
    }
    let there = draft.implies(left, right);
    let (left, right) = (not_next(draft, a), next_not(draft, a));
    let back = draft.implies(right, left);
    draft.and(there, back)
}

fn not_next(draft: &mut Draft, a: usize) -> usize {
    let next = draft.next(a);
    draft.not(next)
}

fn next_not(draft: &mut Draft, a: usize) -> usize {
    let not = draft.not(a);
    draft.next(not)
}

/// ○(A → B) → (○A → ○B)
pub fn ltl2(draft: &mut Draft, a: usize, b: usize) -> usize {
    let both = draft.implies(a, b);
    let next_of_both = draft.next(both);
    let next_a = draft.next(a);
    let rest = implies_next(draft, next_a, b);
    draft.implies(next_of_both, rest)
}

/// □A → (A ∧ ○□A)
pub fn ltl3(draft: &mut Draft, a: usize) -> usize {
    let always_again = draft.always(a);
    let next = draft.next(always_again);
    let now_and_next = draft.and(a, next);
    let always = draft.always(a);
    draft.implies(always, now_and_next)
}
