//! The limits of document 02, orders 2, 7 and 8, in its own numbers: what the second program takes
//! for them is not asked.

use crate::call::Call;
use crate::edited::{COST_AND_BOUND, INTERPOLATE, LIST};
use crate::entry::{Entry, Program};
use crate::lines::{hold, Line};
use crate::planned::{CHECK_PLAN, LIST_OF_PLAN, MATRIX_CHECK_PLAN, MATRIX_LIST_OF_PLAN, PLAN};
use crate::planted::monomials;
use crate::proposed::{
    CHECK_PROPOSAL, LIST_OF_PROPOSAL, MATRIX_CHECK_PROPOSAL, MATRIX_LIST_OF_PROPOSAL,
};
use crate::record::Record;
use crate::{
    cost_and_bound, interpolation, list_of_multiplicities, list_of_reliabilities, multiplicities,
};
use second::field::SYMBOLS;
use tags::hard_word;

const N: usize = 15;
const K: usize = 7;
const LEVEL: usize = 5;
const LIMIT: usize = 225;
const STEPS: usize = 75;
const COEFFICIENTS: usize = 246;
const ROWS: usize = 20;
/// Of a matrix of this cost.
const BOUND: usize = 49;
/// N(51) is 252, and N(52) is 261.
const GREATEST_DEGREE: usize = 51;

/// The fifth power of y + 1, up to a degree.
fn fifth_power(degree: usize) -> Vec<u8> {
    let coefficient = |(a, b): (usize, usize)| u8::from(a == 0 && [0, 1, 4, 5].contains(&b));
    let monomials = monomials(K - 1, degree).into_iter();
    monomials.map(coefficient).collect()
}

fn put_degree(call: &mut Call, degree: usize) {
    call.degree = degree;
    call.coefficients = fifth_power(degree);
}

/// Everything at its limit: a word whose entries cost just so much, the steps of a plan that come to
/// it, a polynomial up to its bound, and the rooms.
fn at_limits() -> Call {
    let word = [1; N];
    let whole = |&entry: &u8| if entry > 0 { 4096 } else { 0 };
    let matrix = hard_word(&word, LEVEL as u8);
    Call {
        level: LEVEL,
        limit: LIMIT,
        steps: STEPS,
        degree: BOUND,
        coefficients: fifth_power(BOUND),
        reliabilities: matrix.iter().map(whole).collect(),
        records: vec![Record::of(N, &matrix)],
        symbols: matrix,
        room: COEFFICIENTS.max(ROWS * K),
        room_for_scores: ROWS,
        ..Call::of_sizes(N, K)
    }
}

/// The matrix with another entry, as bytes and as a record.
fn put(call: &mut Call, place: usize, entry: u8) {
    call.symbols[place] = entry;
    call.records = vec![Record::of(N, &call.symbols)];
}

/// What is changed, and the number and place of the refusal that follows.
type Change = (&'static str, fn(&mut Call), [u16; 2]);

const NOTHING: &[Change] = &[("all at its limit", |_| (), [0, 0])];
const LEVELS: &[Change] = &[
    ("L 4", |call| call.level = LEVEL - 1, [0, 0]),
    ("L 6", |call| call.level = LEVEL + 1, [2, 0]),
];
const LIMITS: &[Change] = &[
    ("G 224", |call| call.limit = LIMIT - 1, [7, 0]),
    ("G 226", |call| call.limit = LIMIT + 1, [2, 0]),
];
const ENTRIES: &[Change] = &[
    ("an entry of 4", |call| put(call, 1, 4), [0, 0]),
    ("an entry of 6", |call| put(call, 1, 6), [5, 1]),
];
const COSTS: &[Change] = &[(
    "a cost of 226",
    |call| put(call, SYMBOLS * N - 1, 1),
    [7, 0],
)];
const ROOM_FOR_COEFFICIENTS: &[Change] = &[(
    "room for 245 coefficients",
    |call| call.room = COEFFICIENTS - 1,
    [4, 0],
)];
const ROOM_FOR_ROWS: &[Change] = &[
    ("room for 20 rows", |call| call.room = ROWS * K, [0, 0]),
    (
        "room for 20 rows less a symbol",
        |call| call.room = ROWS * K - 1,
        [4, 0],
    ),
    (
        "room for 19 scores",
        |call| call.room_for_scores = ROWS - 1,
        [4, 0],
    ),
];

const MORE_STEPS: &[Change] = &[("s 76", |call| call.steps = STEPS + 1, [2, 0])];
const FEWER_STEPS: &[Change] = &[("s 74", |call| call.steps = STEPS - 1, [0, 0])];
const ROOM_FOR_PLAN: &[Change] = &[
    (
        "room for 240 entries",
        |call| call.room = SYMBOLS * N,
        [0, 0],
    ),
    (
        "room for 239 entries",
        |call| call.room = SYMBOLS * N - 1,
        [4, 0],
    ),
];
const OTHER_PLANS: &[Change] = &[
    (
        "s 74 of a plan of 75",
        |call| call.steps = STEPS - 1,
        [9, 0],
    ),
    ("a plan with a 4 for a 5", |call| put(call, 1, 4), [9, 0]),
    ("a plan with a 6 for a 5", |call| put(call, 1, 6), [5, 1]),
];

const OF_LISTED_PLANS: &[&[Change]] = &[
    NOTHING,
    MORE_STEPS,
    OTHER_PLANS,
    LIMITS,
    COSTS,
    ROOM_FOR_ROWS,
];

const DEGREES: &[Change] = &[
    ("D 30", |call| put_degree(call, 30), [0, 0]),
    ("D 48", |call| put_degree(call, BOUND - 1), [0, 0]),
    ("D 52", |call| put_degree(call, GREATEST_DEGREE + 1), [2, 0]),
];
const CHECKED_DEGREES: &[Change] = &[
    ("D 50", |call| put_degree(call, BOUND + 1), [0, 0]),
    ("D 51", |call| put_degree(call, GREATEST_DEGREE), [0, 0]),
];
const LISTED_DEGREES: &[Change] = &[
    ("D 50", |call| put_degree(call, BOUND + 1), [2, 0]),
    ("D 51", |call| put_degree(call, GREATEST_DEGREE), [2, 0]),
];
const LISTED_ENTRIES: &[Change] = &[
    (
        "an entry of 4, which makes the bound 48",
        |call| put(call, 1, 4),
        [2, 0],
    ),
    ("an entry of 6", |call| put(call, 1, 6), [5, 1]),
];
const COEFFICIENT: &[Change] = &[
    (
        "a last coefficient of 15",
        |call| call.coefficients[233] = 15,
        [0, 0],
    ),
    (
        "a last coefficient of 16",
        |call| call.coefficients[233] = 16,
        [5, 473],
    ),
];

const OF_CHECKED_PROPOSALS: &[&[Change]] =
    &[NOTHING, ENTRIES, DEGREES, CHECKED_DEGREES, COEFFICIENT];
const OF_LISTED_PROPOSALS: &[&[Change]] = &[
    NOTHING,
    LISTED_ENTRIES,
    DEGREES,
    LISTED_DEGREES,
    LIMITS,
    COSTS,
    ROOM_FOR_ROWS,
];

const CHANGES: [(&Entry, &[&[Change]]); 17] = [
    (&multiplicities::ENTRY, &[NOTHING, LEVELS]),
    (&cost_and_bound::ENTRY, &[NOTHING, ENTRIES]),
    (
        &interpolation::ENTRY,
        &[NOTHING, LIMITS, ENTRIES, COSTS, ROOM_FOR_COEFFICIENTS],
    ),
    (
        &list_of_multiplicities::ENTRY,
        &[NOTHING, LIMITS, ENTRIES, COSTS, ROOM_FOR_ROWS],
    ),
    (
        &list_of_reliabilities::ENTRY,
        &[NOTHING, LEVELS, LIMITS, ROOM_FOR_ROWS],
    ),
    (&COST_AND_BOUND, &[NOTHING, ENTRIES]),
    (
        &INTERPOLATE,
        &[NOTHING, LIMITS, ENTRIES, COSTS, ROOM_FOR_COEFFICIENTS],
    ),
    (&LIST, &[NOTHING, LIMITS, ENTRIES, COSTS, ROOM_FOR_ROWS]),
    (&PLAN, &[NOTHING, MORE_STEPS, FEWER_STEPS, ROOM_FOR_PLAN]),
    (&CHECK_PLAN, &[NOTHING, MORE_STEPS, OTHER_PLANS]),
    (&MATRIX_CHECK_PLAN, &[NOTHING, MORE_STEPS, OTHER_PLANS]),
    (&LIST_OF_PLAN, OF_LISTED_PLANS),
    (&MATRIX_LIST_OF_PLAN, OF_LISTED_PLANS),
    (&CHECK_PROPOSAL, OF_CHECKED_PROPOSALS),
    (&MATRIX_CHECK_PROPOSAL, OF_CHECKED_PROPOSALS),
    (&LIST_OF_PROPOSAL, OF_LISTED_PROPOSALS),
    (&MATRIX_LIST_OF_PROPOSAL, OF_LISTED_PROPOSALS),
];

fn lines(program: Program) -> Vec<Line> {
    let line = |entry: &Entry, (what, change, refusal): Change| {
        let mut call = at_limits();
        change(&mut call);
        let answer = entry.outcome(program, &call).answer;
        Line {
            text: format!("{}: {what}", entry.name),
            written: refusal.to_vec(),
            answered: vec![answer.number, answer.place],
        }
    };
    let of_entry = |(entry, changes): (&Entry, &[&[Change]])| -> Vec<Line> {
        let changes = changes.concat().into_iter();
        changes.map(|change| line(entry, change)).collect()
    };
    CHANGES.into_iter().flat_map(of_entry).collect()
}

pub fn compare() {
    hold("limits", lines);
}
