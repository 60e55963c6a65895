//! What is interpolated is a yes, and its list is that of the matrix.

use crate::call::{Call, Outcome};
use crate::edited::{matrices, LIST};
use crate::entry::{Entry, Program};
use crate::interpolation;
use crate::list_of_multiplicities;
use crate::lists::with_room;
use crate::proposed::entries::{
    CHECK_PROPOSAL, LIST_OF_PROPOSAL, MATRIX_CHECK_PROPOSAL, MATRIX_LIST_OF_PROPOSAL,
};
use crate::record::Record;
use crate::sizes::Sizes;
use kv::lent::Answer;
use second::bound::{cost, GREATEST_LIMIT};
use second::interpolation::ROOM_FOR_COEFFICIENTS;
use std::process::exit;
use tags::Random;

const SEED: u64 = 19;
const TAGS: usize = 3;
const LEAST_ROWS: usize = 500;

const YES: Answer = Answer {
    number: 0,
    place: 0,
    count: 0,
    value: 1,
    cost: 0,
    bound: 0,
};

/// What lists a proposal, and what lists the matrix.
const LISTS: [[&Entry; 2]; 2] = [
    [&LIST_OF_PROPOSAL, &list_of_multiplicities::ENTRY],
    [&MATRIX_LIST_OF_PROPOSAL, &LIST],
];

/// The call with the polynomial that is interpolated for its matrix.
fn with_own_polynomial(call: &Call) -> Call {
    let roomy = Call {
        room: ROOM_FOR_COEFFICIENTS,
        ..call.clone()
    };
    let Outcome { answer, memory } = interpolation::ENTRY.outcome(Program::Proved, &roomy);
    Call {
        degree: answer.bound.into(),
        coefficients: memory.out.part()[..answer.count.into()].to_vec(),
        ..call.clone()
    }
}

/// Ends the run unless the polynomial is a yes, and listed as the matrix is; answers how many rows
/// are listed.
fn listed_alike(call: &Call) -> usize {
    for entry in [&CHECK_PROPOSAL, &MATRIX_CHECK_PROPOSAL] {
        let answer = entry.outcome(Program::Proved, call).answer;
        entry.found(call, &answer, &YES);
    }
    let mut rows = 0;
    for lists in LISTS {
        let [of_proposal, of_matrix] = lists.map(|entry| entry.outcome(Program::Proved, call));
        lists[0].found(call, &of_proposal, &of_matrix);
        rows = of_proposal.answer.count;
    }
    rows.into()
}

fn call(n: usize, k: usize, matrix: Vec<u8>) -> Call {
    with_own_polynomial(&Call {
        limit: GREATEST_LIMIT,
        records: vec![Record::of(n, &matrix)],
        symbols: matrix,
        ..with_room(n, k)
    })
}

pub fn compare() {
    let mut random = Random::new(SEED);
    let (mut polynomials, mut rows) = (0, 0);
    for (n, k) in Sizes::Both.allowed().repeat(TAGS) {
        let matrices = matrices(&mut random, n, k).into_iter();
        for matrix in matrices.filter(|matrix| cost(matrix) <= GREATEST_LIMIT) {
            rows += listed_alike(&call(n, k, matrix));
            polynomials += 1;
        }
    }
    if rows < LEAST_ROWS {
        eprintln!("{rows} rows were listed; at least {LEAST_ROWS} were to be");
        exit(1);
    }
    println!("compared proposals: {polynomials} that are interpolated are a yes and listed as matrices are, {rows} rows listed");
}
