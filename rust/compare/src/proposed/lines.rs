//! What document 02, order 8, says of single proposals, written out.

use crate::call::Call;
use crate::entry::{Entry, Program};
use crate::lines::{hold, told_line, Line};
use crate::lists;
use crate::proposed::entries::{
    CHECK_PROPOSAL, LIST_OF_PROPOSAL, MATRIX_CHECK_PROPOSAL, MATRIX_LIST_OF_PROPOSAL,
};
use crate::proposed::inputs::interpolated;
use crate::record::Record;

const N: usize = 3;
const ENTRIES: usize = 48;

/// Places and what a matrix has there; it has 0 elsewhere.
type Entries = &'static [(usize, u8)];

/// Number and place of the refusal, and what the check tells: 1 for a yes, 0 for a no.
type Answers = [u16; 3];

const YES: Answers = [0, 0, 1];
const NO: Answers = [0, 0, 0];
const SETTING: Answers = [2, 0, 0];
const LENGTH: Answers = [3, 0, 0];
const COST: Answers = [7, 0, 0];
const PROPOSAL: Answers = [10, 0, 0];

const fn symbol(place: u16) -> Answers {
    [5, place, 0]
}

/// The hard word 1,1,1, of which the bound is 2.
const WORD: Entries = &[(1, 1), (17, 1), (33, 1)];
/// A mark that counts so often at symbol 0: bounds 1, 2 and 3.
const ONCE: Entries = &[(0, 1)];
const TWICE: Entries = &[(0, 2)];
const THRICE: Entries = &[(0, 3)];
/// The first mark at all symbols, five times each: it costs 240, and its bound is 21.
const DEAR: Entries = &{
    let mut entries = [(0, 5); 16];
    let mut place = 0;
    while place < entries.len() {
        entries[place].0 = place;
        place += 1;
    }
    entries
};

/// A matrix, a degree and its coefficients with k 2, in the order 1, x, y, x², xy, y², x³ and so
/// on; what the checks answer, and what the lists do.
const PROPOSALS: [(Entries, usize, &[u8], Answers, Answers); 40] = [
    // 1 + y, and multiples of it, through the hard word.
    (WORD, 1, &[1, 0, 1], YES, NO),
    (WORD, 2, &[1, 0, 1, 0, 0, 0], YES, NO),
    (WORD, 2, &[7, 0, 7, 0, 0, 0], YES, NO),
    (WORD, 2, &[0, 1, 0, 0, 1, 0], YES, NO),
    (WORD, 2, &[0, 0, 1, 0, 0, 1], YES, NO),
    (WORD, 2, &[1, 0, 0, 0, 0, 1], YES, NO),
    (WORD, 3, &[1, 0, 1, 0, 0, 0, 0, 0, 0, 0], YES, SETTING),
    (WORD, 3, &[0, 0, 0, 1, 0, 0, 0, 1, 0, 0], YES, SETTING),
    // One coefficient off.
    (WORD, 2, &[0, 0, 1, 0, 0, 0], NO, PROPOSAL),
    (WORD, 2, &[1, 0, 2, 0, 0, 0], NO, PROPOSAL),
    (WORD, 2, &[1, 0, 1, 0, 0, 1], NO, PROPOSAL),
    (WORD, 2, &[1, 1, 1, 0, 0, 0], NO, PROPOSAL),
    // Through one mark of the word, and through two: 1 + x, and that times 2 + x.
    (WORD, 1, &[1, 1, 0], NO, PROPOSAL),
    (WORD, 2, &[2, 3, 0, 1, 0, 0], NO, PROPOSAL),
    // Through all three of them: that times 4 + x.
    (WORD, 3, &[8, 14, 0, 7, 0, 0, 1, 0, 0, 0], YES, SETTING),
    // Nothing but zeros, up to the bound and above it.
    (WORD, 0, &[0], NO, PROPOSAL),
    (WORD, 2, &[0; 6], NO, PROPOSAL),
    (WORD, 3, &[0; 10], NO, SETTING),
    (&[], 0, &[0], NO, PROPOSAL),
    // Where nothing is asked for, any other polynomial is a yes.
    (&[], 0, &[15], YES, NO),
    (&[], 1, &[0, 1, 0], YES, SETTING),
    // Ordinary derivatives would have y² pass three times: it passes twice.
    (ONCE, 1, &[0, 0, 1], YES, NO),
    (TWICE, 2, &[0, 0, 1, 0, 0, 0], NO, PROPOSAL),
    (TWICE, 2, &[0, 0, 0, 0, 0, 1], YES, NO),
    (THRICE, 2, &[0, 0, 0, 0, 0, 1], NO, PROPOSAL),
    (THRICE, 3, &[0, 0, 0, 0, 0, 0, 0, 0, 0, 1], YES, NO),
    // 1 + x² passes twice at x 1, and (1 + x) y does where y is 0.
    (TWICE, 2, &[1, 0, 0, 1, 0, 0], YES, NO),
    (TWICE, 2, &[0, 0, 1, 0, 1, 0], YES, NO),
    (THRICE, 2, &[0, 0, 1, 0, 1, 0], NO, PROPOSAL),
    // More than 256 monomials, and whatever else is wrong.
    (WORD, 22, &[1; 276], SETTING, SETTING),
    (WORD, usize::MAX, &[], SETTING, SETTING),
    (&[(1, 6)], 256, &[16], SETTING, SETTING),
    // A coefficient too few, and one too many.
    (WORD, 2, &[1, 0, 1, 0, 0], LENGTH, LENGTH),
    (WORD, 2, &[1, 0, 1, 0, 0, 0, 0], LENGTH, LENGTH),
    (&[(1, 6)], 2, &[16], LENGTH, LENGTH),
    // Symbols: the matrix before the coefficients, whose indexes run on.
    (WORD, 2, &[1, 0, 1, 0, 0, 16], symbol(53), symbol(53)),
    (WORD, 2, &[16, 0, 1, 0, 0, 255], symbol(48), symbol(48)),
    (&[(47, 6)], 2, &[16, 0, 0, 0, 0, 0], symbol(47), symbol(47)),
    // There is no limit on the cost for a check: (1 + x)⁵ passes everywhere at x 1.
    (DEAR, 5, &FIFTH, YES, COST),
    (DEAR, 5, &[0; 21], NO, COST),
];

/// (1 + x)⁵ is 1 + x + x⁴ + x⁵.
const FIFTH: [u8; 21] = {
    let mut coefficients = [0; 21];
    (coefficients[0], coefficients[1]) = (1, 1);
    (coefficients[10], coefficients[15]) = (1, 1);
    coefficients
};

/// A degree, coefficients and a limit for the hard word; number, place and count of the list.
const WITH_LIMIT: [(usize, &[u8], usize, Answers); 9] = [
    (2, &[1, 0, 1, 0, 0, 0], 3, [0, 0, 1]),
    (2, &[1, 0, 1, 0, 0, 0], 2, COST),
    (2, &[1, 0, 1, 0, 0, 0], 226, SETTING),
    (2, &[0; 6], 3, PROPOSAL),
    (2, &[0; 6], 2, COST),
    (3, &[0; 10], 3, SETTING),
    (3, &[0; 10], 2, COST),
    (2, &[0, 0, 0, 0, 0, 16], 2, symbol(53)),
    (2, &[0; 5], 2, LENGTH),
];

/// A call with the matrix as bytes and in a record, and with room for a list.
fn call(entries: Entries, degree: usize, coefficients: &[u8], limit: usize) -> Call {
    let mut matrix = vec![0; ENTRIES];
    for &(place, entry) in entries {
        matrix[place] = entry;
    }
    Call {
        limit,
        degree,
        coefficients: coefficients.to_vec(),
        records: vec![Record::of(N, &matrix)],
        symbols: matrix,
        room: 40,
        room_for_scores: 20,
        ..Call::of_sizes(N, 2)
    }
}

fn value_line(program: Program, entry: &Entry, call: &Call, written: Answers) -> Line {
    told_line(program, entry, call, written, |answer| answer.value)
}

/// The checks tell a yes or a no, the lists do not.
fn proposal_lines(program: Program) -> Vec<Line> {
    let mut lines = Vec::new();
    for (entries, degree, coefficients, checked, listed) in PROPOSALS {
        let call = call(entries, degree, coefficients, 225);
        for entry in [&CHECK_PROPOSAL, &MATRIX_CHECK_PROPOSAL] {
            lines.push(value_line(program, entry, &call, checked));
        }
        for entry in [&LIST_OF_PROPOSAL, &MATRIX_LIST_OF_PROPOSAL] {
            lines.push(value_line(program, entry, &call, listed));
        }
    }
    lines
}

fn limit_lines(program: Program) -> Vec<Line> {
    let mut lines = Vec::new();
    for (degree, coefficients, limit, written) in WITH_LIMIT {
        let call = call(WORD, degree, coefficients, limit);
        for entry in [&LIST_OF_PROPOSAL, &MATRIX_LIST_OF_PROPOSAL] {
            let line = told_line(program, entry, &call, written, |answer| answer.count);
            lines.push(line);
        }
    }
    lines
}

fn lines(program: Program) -> Vec<Line> {
    let mut lines = proposal_lines(program);
    lines.extend(limit_lines(program));
    lines
}

/// The polynomial that is interpolated for a word's matrix.
fn put_word(call: &mut Call, _: u8, matrix: Vec<u8>) {
    let (degree, coefficients) = interpolated(call.n, call.k, &matrix);
    call.degree = degree;
    call.coefficients = coefficients;
    call.records = vec![Record::of(call.n, &matrix)];
    call.symbols = matrix;
}

pub fn compare() {
    hold("proposals", lines);
    for entry in [&LIST_OF_PROPOSAL, &MATRIX_LIST_OF_PROPOSAL] {
        hold(entry.name, |program| lists::lines(entry, program, put_word));
    }
}
