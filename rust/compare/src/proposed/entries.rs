//! The entries that take a polynomial from outside: how both programs are called, and which faults
//! a call can have.

use crate::call::Call;
use crate::entry::Entry;
use crate::faults::{length, Choice, LIMIT, ROOM_FOR_ROWS, ROOM_FOR_SCORES};
use crate::lent::Lent;
use crate::planted::monomials;
use crate::proposed::inputs::{CHECKED, HELD_CHECKED, HELD_LISTED, LISTED};
use crate::roots::{seeming_degree, weight};
use crate::sizes::{huge_sizes, looks_like, Sizes};
use kv::{lent, Refusal};
use second::bound::{bound, GREATEST_LIMIT};
use second::field::SYMBOLS;
use second::proposal::{self, Proposal};
use second::roots::MOST_COEFFICIENTS;
use second::{list, record};

/// So many degrees above the greatest bound N(D) is above the most coefficients, whatever k is.
const ABOVE: usize = 7;

/// The greatest bound there is. Which degrees are allowed depends on k, and the contents tell.
const DEGREE: Choice = Choice {
    fault: Refusal::Setting,
    right: |call| bound(weight(call), GREATEST_LIMIT),
    allowed: |_, _| true,
    around: |greatest| {
        let small = (0..=3).collect();
        let ends = (greatest - 1..=greatest + ABOVE).collect();
        let great = vec![MOST_COEFFICIENTS - 1, usize::MAX / 2, usize::MAX - 1];
        [small, ends, great, huge_sizes()].concat()
    },
    far: |_| huge_sizes(),
    put: |made, degree| made.call.degree = degree,
};

const LENGTH: Choice = length(|call| SYMBOLS * looks_like(call.n));

const COEFFICIENTS_LENGTH: Choice = Choice {
    put: |made, length| made.coefficients_length = length,
    ..length(|call| monomials(weight(call), seeming_degree(call)).len())
};

fn proposal(degree: usize, coefficients: &Lent<u8>) -> Proposal<'_> {
    Proposal {
        degree,
        coefficients: coefficients.part(),
    }
}

pub static CHECK_PROPOSAL: Entry = Entry {
    name: "check proposal",
    proved: |call, lent| {
        let (matrix, coefficients) = (lent.symbols.part(), lent.coefficients.part());
        lent::check_proposal(call.n, call.k, call.degree, matrix, coefficients)
    },
    second: |call, lent| {
        let proposal = proposal(call.degree, &lent.coefficients);
        proposal::check_proposal(call.n, call.k, lent.symbols.part(), proposal)
    },
    refusals: &[1, 2, 3, 5],
    sizes: Sizes::Both,
    choices: &[DEGREE, LENGTH, COEFFICIENTS_LENGTH],
    input: CHECKED,
};

pub static LIST_OF_PROPOSAL: Entry = Entry {
    name: "list of proposal",
    proved: |call, lent| {
        let (matrix, coefficients) = (lent.symbols.part(), lent.coefficients.part());
        let (rows, scores) = (lent.out.part_mut(), lent.scores.part_mut());
        let Call {
            n,
            k,
            limit,
            degree,
            ..
        } = *call;
        lent::list_of_proposal(n, k, limit, degree, matrix, coefficients, rows, scores)
    },
    second: |call, lent| {
        let proposal = proposal(call.degree, &lent.coefficients);
        let (matrix, rows) = (lent.symbols.part(), lent.out.part_mut());
        let scores = lent.scores.part_mut();
        list::list_of_proposal(call.n, call.k, call.limit, matrix, proposal, rows, scores)
    },
    refusals: &[1, 2, 3, 4, 5, 7, 10],
    sizes: Sizes::Both,
    choices: &[
        LIMIT,
        DEGREE,
        ROOM_FOR_ROWS,
        ROOM_FOR_SCORES,
        LENGTH,
        COEFFICIENTS_LENGTH,
    ],
    input: LISTED,
};

pub static MATRIX_CHECK_PROPOSAL: Entry = Entry {
    name: "matrix check proposal",
    proved: |call, lent| {
        let (record, coefficients) = (lent.records[0].of_library(), lent.coefficients.part());
        lent::matrix_check_proposal(record, call.k, call.degree, coefficients)
    },
    second: |call, lent| {
        let proposal = proposal(call.degree, &lent.coefficients);
        record::check_proposal(lent.records[0].of_second(), call.k, proposal)
    },
    refusals: &[1, 2, 3, 5],
    sizes: Sizes::Both,
    choices: &[DEGREE, COEFFICIENTS_LENGTH],
    input: HELD_CHECKED,
};

pub static MATRIX_LIST_OF_PROPOSAL: Entry = Entry {
    name: "matrix list of proposal",
    proved: |call, lent| {
        let (record, coefficients) = (lent.records[0].of_library(), lent.coefficients.part());
        let (rows, scores) = (lent.out.part_mut(), lent.scores.part_mut());
        let Call {
            k, limit, degree, ..
        } = *call;
        lent::matrix_list_of_proposal(record, k, limit, degree, coefficients, rows, scores)
    },
    second: |call, lent| {
        let proposal = proposal(call.degree, &lent.coefficients);
        let (record, rows) = (lent.records[0].of_second(), lent.out.part_mut());
        let scores = lent.scores.part_mut();
        record::list_of_proposal(record, call.k, call.limit, proposal, rows, scores)
    },
    refusals: &[1, 2, 3, 4, 5, 7, 10],
    sizes: Sizes::Both,
    choices: &[
        LIMIT,
        DEGREE,
        ROOM_FOR_ROWS,
        ROOM_FOR_SCORES,
        COEFFICIENTS_LENGTH,
    ],
    input: HELD_LISTED,
};
