//! What the documents say of the sums of columns, asked of an entry that takes reliabilities.

use crate::call::Call;
use crate::columns::{columns, GREATEST_SUM};
use crate::entry::{Entry, Program};
use crate::lines::Line;
use second::bound::GREATEST_LIMIT;
use second::list::MOST_ROWS;
use tags::Random;

const SEED: u64 = 9;

/// What a column sums to, and the number of the refusal: document 02, order 1.
const SUMS: [(usize, u16); 8] = [
    (0, 0),
    (1, 0),
    (4_093, 0),
    (4_095, 0),
    (4_096, 0),
    (4_097, 6),
    (69_632, 6),
    (1_048_560, 6),
];

/// Between two whole columns, which sums are taken.
pub fn sum_lines(entry: &Entry, program: Program) -> Vec<Line> {
    let mut random = Random::new(SEED);
    let line = |(sum, number): (usize, u16)| {
        let weights = columns(&mut random, &[GREATEST_SUM, sum, GREATEST_SUM]);
        let call = Call {
            level: 1,
            limit: GREATEST_LIMIT,
            room: weights.len(),
            room_for_scores: MOST_ROWS,
            reliabilities: weights,
            ..Call::of_sizes(3, 2)
        };
        let answer = entry.outcome(program, &call).answer;
        Line {
            text: format!("a column at position 1 that sums to {sum}"),
            written: vec![number, u16::from(number != 0)],
            answered: vec![answer.number, answer.place],
        }
    };
    SUMS.map(line).into()
}
