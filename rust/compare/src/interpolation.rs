use crate::call::Call;
use crate::comparison::Comparison;
use crate::contents::MATRIX;
use crate::entry::{Entry, Program};
use crate::faults::{length, room, Choice, LIMIT};
use crate::lines::{hold, Line};
use crate::sizes::{looks_like, with_entry, Sizes};
use second::bound::{cost, GREATEST_LIMIT, GREATEST_MULTIPLICITY};
use second::field::SYMBOLS;
use second::interpolation::ROOM_FOR_COEFFICIENTS;
use second::weights::WHOLE;
use tags::{
    hard_word, matrix_of, multiplicity, random_codeword, random_matrix, soft_weights,
    with_wrong_marks,
};

const LEAST_CALLS: usize = 335_000;
const SEED: u64 = 4;
const RANDOM_MATRICES: usize = 40;
const WORN_TAGS: usize = 20;

pub static ENTRY: Entry = Entry {
    name: "interpolation",
    proved: |call, lent| {
        let (matrix, out) = (lent.symbols.part(), lent.out.part_mut());
        kv::lent::interpolate(call.n, call.k, call.limit, matrix, out)
    },
    second: |call, lent| {
        let (matrix, out) = (lent.symbols.part(), lent.out.part_mut());
        second::interpolation::interpolate(call.n, call.k, call.limit, matrix, out)
    },
    refusals: &[1, 2, 3, 4, 5, 7],
    sizes: Sizes::Both,
    choices: &[
        Choice {
            around: |greatest| vec![0, greatest, greatest + 1, usize::MAX],
            ..LIMIT
        },
        room(|_| ROOM_FOR_COEFFICIENTS),
        length(|call| SYMBOLS * looks_like(call.n)),
    ],
    input: MATRIX,
};

impl Comparison {
    fn interpolated(&mut self, n: usize, k: usize, matrix: Vec<u8>) {
        let limit = self.random.between(cost(&matrix), GREATEST_LIMIT);
        self.compare_good(Call {
            limit,
            room: ROOM_FOR_COEFFICIENTS,
            symbols: matrix,
            ..Call::of_sizes(n, k)
        });
    }

    /// Each multiplicity at one point of each position.
    fn single_points(&mut self, n: usize, k: usize) {
        self.interpolated(n, k, vec![0; SYMBOLS * n]);
        for position in 0..n {
            for m in 1..=GREATEST_MULTIPLICITY {
                let symbol = self.random.between(0, SYMBOLS - 1);
                for symbol in [0, symbol] {
                    let place = SYMBOLS * position + symbol;
                    self.interpolated(n, k, with_entry(&vec![0; SYMBOLS * n], place, m));
                }
            }
        }
    }

    fn random_entries(&mut self, n: usize, k: usize) {
        for _ in 0..RANDOM_MATRICES {
            let greatest = multiplicity(&mut self.random);
            let most_cost = self.random.between(0, GREATEST_LIMIT);
            let matrix = random_matrix(&mut self.random, n, greatest, most_cost);
            self.interpolated(n, k, matrix);
        }
    }

    fn words_and_weights(&mut self, n: usize, k: usize) {
        for _ in 0..WORN_TAGS {
            let wrong = self.random.between(0, n - k);
            let word = random_codeword(&mut self.random, n, k);
            let word = with_wrong_marks(&mut self.random, &word, wrong);
            let level = multiplicity(&mut self.random);
            self.interpolated(n, k, hard_word(&word, level));
            let share = self.random.between(0, WHOLE as usize);
            let weights = soft_weights(&mut self.random, &word, share);
            self.interpolated(n, k, matrix_of(&weights, level.into()));
        }
    }
}

/// What document 01 says of single polynomials.
fn lines(program: Program) -> Vec<Line> {
    let line = |word: &[u8], m, bound, coefficients: &[u16]| {
        let outcome = ENTRY.outcome(
            program,
            &Call {
                limit: GREATEST_LIMIT,
                symbols: hard_word(word, m),
                room: ROOM_FOR_COEFFICIENTS,
                ..Call::of_sizes(word.len(), 2)
            },
        );
        let answer = outcome.answer;
        Line {
            text: format!("the polynomial of word {word:?}, each {m} times, k 2"),
            written: [&[bound, coefficients.len() as u16], coefficients].concat(),
            answered: outcome.numbers(&[answer.bound, answer.count], coefficients.len()),
        }
    };
    vec![
        line(&[1, 1, 1], 1, 2, &[1, 0, 1, 0, 0, 0]),
        line(&[1, 1, 1], 0, 0, &[1]),
    ]
}

pub fn compare() {
    let mut comparison = Comparison::new(&ENTRY, SEED);
    comparison.faults();
    for (n, k) in Sizes::Both.allowed() {
        comparison.single_points(n, k);
        comparison.random_entries(n, k);
        comparison.words_and_weights(n, k);
        let call = Call {
            room: ROOM_FOR_COEFFICIENTS,
            ..Call::of_sizes(n, k)
        };
        comparison.limits_beside_cost(&call, |call, matrix| call.symbols = matrix);
    }
    comparison.finish(LEAST_CALLS);
    hold("interpolation", lines);
}
