// Refutations by long runs on which something changes near the end of a row's word of 64 positions, of a stem or of a run.

use super::draft::Draft;
use super::runs::{run_with, table_of, RunBytes, POSITIONS_MOST};
use crate::plain;
use crate::random::Random;

/// Below this length of a file there is room for one more refutation by the longest run.
const ROOM: usize = 15_000;

const LENGTHS: [usize; 12] = [63, 64, 65, 127, 128, 129, 191, 192, 193, 254, 255, POSITIONS_MOST];

/// Each formula is there with its negation, so that one of the two can be refuted at any position.
pub fn write_edges(draft: &mut Draft) {
    let pairs = add_pairs(draft);
    let assumed = draft.random.one_in(3);
    if assumed {
        let assumption = draft.atom(KEPT_ATOM);
        draft.assume(assumption);
    }
    draft.seal();
    for _ in 0..draft.random.between(5, 60) {
        if draft.length() < ROOM {
            let run = any_edge_run(&mut draft.random, assumed);
            refute_one_of(draft, &pairs, &run);
        }
    }
}

fn add_pairs(draft: &mut Draft) -> Vec<(usize, usize)> {
    let mut pairs = Vec::new();
    for atom in 0..3 {
        for formula in formulas_on(draft, atom) {
            let negation = draft.not(formula);
            pairs.push((formula, negation));
        }
    }
    pairs
}

fn formulas_on(draft: &mut Draft, atom: usize) -> Vec<usize> {
    let now = draft.atom(atom);
    let (next, always, sometime) = (draft.next(now), draft.always(now), draft.sometime(now));
    let kept = draft.implies(now, next);
    let (next_always, always_next, always_kept) = (draft.next(always), draft.always(next), draft.always(kept));
    let last = draft.implies(next, now);
    vec![now, next, always, sometime, kept, next_always, always_next, always_kept, last]
}

fn refute_one_of(draft: &mut Draft, pairs: &[(usize, usize)], bytes: &RunBytes) {
    let run = bytes.run();
    let position = any_edge(&mut draft.random, run.positions(), run.stem);
    let (formula, negation) = draft.random.pick(pairs);
    let is_true = plain::truths(&draft.formulas, &run)[formula][position];
    bytes.claim(draft, if is_true { negation } else { formula }, position);
}

// ---- Runs ----

/// The atom that the tables have true throughout, but for a few of them.
const KEPT_ATOM: usize = 3;

fn any_edge_run(random: &mut Random, only_tables: bool) -> RunBytes {
    let positions = random.pick(&LENGTHS);
    if only_tables || random.one_in(2) { edge_table(random, positions) } else { run_with(random, positions) }
}

/// v0 is false once, v1 is true once, and v2 is true from somewhere on.
fn edge_table(random: &mut Random, positions: usize) -> RunBytes {
    let stem = any_edge(random, positions, positions / 2);
    let edges: Vec<usize> = (0..4).map(|_| any_edge(random, positions, stem)).collect();
    let breaks = random.one_in(12);
    let word = |position: usize| {
        let truths = [position != edges[0], position == edges[1], position >= edges[2], !breaks || position != edges[KEPT_ATOM]];
        (0..).zip(truths).map(|(atom, is_true)| u32::from(is_true) << atom).sum()
    };
    let words: Vec<u32> = (0..positions).map(word).collect();
    table_of(stem, positions - stem, &words)
}

/// A position near the end of a word, of the stem or of the run.
fn any_edge(random: &mut Random, positions: usize, stem: usize) -> usize {
    let ends = [0, 64, 128, 192, stem, positions];
    let near = random.pick(&ends) + random.below(4);
    near.saturating_sub(2).min(positions - 1)
}
