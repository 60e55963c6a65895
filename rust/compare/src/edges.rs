//! What the documents say of single numbers.

use crate::call::Call;
use crate::columns::GREATEST_SUM;
use crate::entry::{Entry, Program};
use crate::lines::{hold, Line};
use crate::{cost_and_bound, encode, field, multiplicities};
use second::field::{ALPHA, SYMBOLS};
use std::process::exit;
use tags::hard_word;

const LEAST_LINES: usize = 49;

const POWERS_OF_ALPHA: [u16; 16] = [1, 2, 4, 8, 3, 6, 12, 11, 5, 10, 7, 14, 15, 13, 9, 1];
const PRODUCTS: [(u8, u8, u16); 2] = [(3, 5, 15), (7, 7, 6)];
const INVERSES: [(u8, u16); 2] = [(2, 9), (3, 14)];
/// A level, a reliability and the multiplicity.
const MULTIPLICITIES: [(usize, u16, u16); 11] = [
    (4, 1023, 0),
    (4, 1024, 1),
    (4, 4093, 3),
    (4, 4095, 3),
    (4, 4096, 4),
    (5, 819, 0),
    (5, 820, 1),
    (5, 3276, 3),
    (5, 3277, 4),
    (5, 4095, 4),
    (5, 4096, 5),
];
/// A word, its multiplicity at each of its symbols, k, the cost and the bound.
const COSTS_AND_BOUNDS: [(&[u8], u8, usize, u16, u16); 7] = [
    (&[1, 1, 1], 1, 2, 3, 2),
    (&[1, 1, 1, 2], 1, 2, 4, 2),
    (&[1, 1, 1], 0, 2, 0, 0),
    (&[1; 15], 1, 7, 15, 10),
    (&[1; 15], 4, 7, 150, 39),
    (&[1; 15], 5, 7, 225, 49),
    (&[1; 15], 5, 2, 225, 20),
];

fn field_lines(program: Program) -> Vec<Line> {
    let value = |entry: &Entry, operands: &[u8]| {
        let outcome = entry.outcome(program, &field::call(operands));
        vec![outcome.answer.value]
    };
    let product = |(a, b, written)| Line {
        text: format!("{a} times {b}"),
        written: vec![written],
        answered: value(&field::PRODUCT, &[a, b]),
    };
    let inverse = |(a, written)| Line {
        text: format!("the inverse of {a}"),
        written: vec![written],
        answered: value(&field::INVERSE, &[a]),
    };
    let powers = POWERS_OF_ALPHA.windows(2);
    powers
        .map(|pair| product((pair[0] as u8, ALPHA, pair[1])))
        .chain(PRODUCTS.map(product))
        .chain(INVERSES.map(inverse))
        .collect()
}

fn codeword_line(program: Program) -> Line {
    let call = Call {
        symbols: vec![0, 1],
        room: 3,
        ..Call::of_sizes(3, 2)
    };
    Line {
        text: "the codeword of message 0,1".to_string(),
        written: vec![1, 2, 4],
        answered: encode::ENTRY.outcome(program, &call).numbers(&[], 3),
    }
}

fn multiplicity_line(program: Program, (level, reliability, written): (usize, u16, u16)) -> Line {
    let whole = GREATEST_SUM as u16;
    let mut weights = [0; 2 * SYMBOLS];
    weights[0] = reliability;
    weights[1] = whole - reliability;
    weights[SYMBOLS] = whole;
    Line {
        text: format!("the multiplicity of {reliability} at level {level}"),
        written: vec![written],
        answered: matrix_at(level, program, &weights, 1),
    }
}

/// The same reliability in a column that has no other, and then an erased mark.
fn alone_line(program: Program, (level, reliability, written): (usize, u16, u16)) -> Line {
    let (mut weights, mut matrix) = ([0; 2 * SYMBOLS], vec![0; 2 * SYMBOLS]);
    weights[0] = reliability;
    matrix[0] = written;
    Line {
        text: format!("the matrix of {reliability} alone and an erased mark at level {level}"),
        written: matrix,
        answered: matrix_at(level, program, &weights, weights.len()),
    }
}

/// The first entries of the matrix that is written.
fn matrix_at(level: usize, program: Program, weights: &[u16], entries: usize) -> Vec<u16> {
    let call = Call {
        level,
        room: weights.len(),
        reliabilities: weights.to_vec(),
        ..Call::of_sizes(weights.len() / SYMBOLS, 0)
    };
    let outcome = multiplicities::ENTRY.outcome(program, &call);
    outcome.numbers(&[], entries)
}

fn cost_and_bound_line(
    program: Program,
    (word, m, k, cost, bound): (&[u8], u8, usize, u16, u16),
) -> Line {
    let call = Call {
        symbols: hard_word(word, m),
        ..Call::of_sizes(word.len(), k)
    };
    let answer = cost_and_bound::ENTRY.outcome(program, &call).answer;
    Line {
        text: format!("cost and bound of word {word:?}, each {m} times, k {k}"),
        written: vec![cost, bound],
        answered: vec![answer.cost, answer.bound],
    }
}

fn lines(program: Program) -> Vec<Line> {
    let mut lines = field_lines(program);
    lines.push(codeword_line(program));
    lines.extend(MULTIPLICITIES.map(|line| multiplicity_line(program, line)));
    lines.extend(MULTIPLICITIES.map(|line| alone_line(program, line)));
    lines.extend(COSTS_AND_BOUNDS.map(|line| cost_and_bound_line(program, line)));
    lines
}

pub fn compare() {
    if lines(Program::Second).len() < LEAST_LINES {
        eprintln!("fewer than {LEAST_LINES} lines of the documents were asked");
        exit(1);
    }
    hold("first layer", lines);
}
