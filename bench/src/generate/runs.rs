// Runs as the bytes of refutation records: random ones, and one run written in other ways.

use super::draft::Draft;
use crate::plain::{self, Run};
use crate::random::Random;
use crate::records::{field, PULSES, TABLE};

/// The most positions that a refutation's run may have.
pub const POSITIONS_MOST: usize = 256;

/// A run as a refutation record has it, behind the formula and the position.
pub struct RunBytes {
    kind: u16,
    bytes: Vec<u8>,
}

impl RunBytes {
    pub fn run(&self) -> Run {
        let payload = self.claiming(0, 0);
        let refutation = if self.kind == TABLE { plain::table_refutation(&payload) } else { plain::pulse_refutation(&payload) };
        refutation.expect("runs are written as they must be").run
    }

    /// The payload of a record that claims that the formula does not hold at the position.
    fn claiming(&self, formula: usize, position: usize) -> Vec<u8> {
        [&field(formula)[..], &field(position), &self.bytes].concat()
    }

    pub fn claim(&self, draft: &mut Draft, formula: usize, position: usize) {
        draft.record(self.kind, &self.claiming(formula, position));
    }
}

/// Mostly a short run; sometimes one that ends near the end of a word of 64 bits.
pub fn any_run(random: &mut Random) -> RunBytes {
    let positions = match random.below(12) {
        0 => random.pick(&[63, 64, 65, 127, 128, 129, 191, 192, 193]),
        1 => random.between(1, 60),
        _ => random.between(1, 9),
    };
    run_with(random, positions)
}

/// A run with as many positions of stem and loop together.
pub fn run_with(random: &mut Random, positions: usize) -> RunBytes {
    let loop_length = random.between(1, positions);
    if random.one_in(2) {
        table(random, positions - loop_length, loop_length)
    } else {
        pulses(random, positions - loop_length, loop_length)
    }
}

fn table(random: &mut Random, stem: usize, loop_length: usize) -> RunBytes {
    let mut words = vec![0_u32; stem + loop_length];
    for atom in 0..32 {
        let habit = random.below(6);
        let odd_one = random.below(words.len());
        for (position, word) in words.iter_mut().enumerate() {
            let is_true = match habit {
                0 => true,
                1 => false,
                2 => position >= stem,
                3 => position == odd_one,
                4 => position != odd_one,
                _ => random.one_in(2),
            };
            *word |= u32::from(is_true) << atom;
        }
    }
    table_of(stem, loop_length, &words)
}

pub fn table_of(stem: usize, loop_length: usize, words: &[u32]) -> RunBytes {
    let words: Vec<u8> = words.iter().flat_map(|word| word.to_le_bytes()).collect();
    RunBytes { kind: TABLE, bytes: [&field(stem)[..], &field(loop_length), &words].concat() }
}

/// The stem is that of one pulse at least, if it is not 0.
fn pulses(random: &mut Random, stem: usize, loop_length: usize) -> RunBytes {
    let mut bytes = field(loop_length).to_vec();
    let stem_atom = random.below(4);
    for atom in 0..32 {
        let is_stem_atom = atom == stem_atom && stem > 0;
        if is_stem_atom || random.one_in(if atom < 3 { 2 } else { 12 }) {
            let first = if is_stem_atom { stem } else { random.below(stem + 1) };
            let period = any_divisor(random, loop_length);
            let width = random.pick(&[0, 1, period / 2, period - 1, period]).min(period);
            bytes.extend([atom, first, period, width].map(field).concat());
        }
    }
    RunBytes { kind: PULSES, bytes }
}

fn any_divisor(random: &mut Random, number: usize) -> usize {
    let divisors: Vec<usize> = (1..=number).filter(|divisor| number.is_multiple_of(*divisor)).collect();
    random.pick(&divisors)
}

/// The same run as a table, with a longer stem, and its loop gone through more than once where there is room.
pub fn written_longer(random: &mut Random, run: &Run) -> RunBytes {
    let stem = run.stem + random.below(4);
    let times = random.between(1, 3);
    let loop_length = if stem + times * run.loop_length <= POSITIONS_MOST { times * run.loop_length } else { run.loop_length };
    let words: Vec<u32> = (0..stem + loop_length).map(|position| word_at(run, position)).collect();
    table_of(stem, loop_length, &words)
}

fn word_at(run: &Run, position: usize) -> u32 {
    (0..32).map(|atom| u32::from(run.is_true(atom, position)) << atom).sum()
}
