//! What document 02, order 7, says of single plans, written out.

use crate::call::Call;
use crate::entry::{Entry, Program};
use crate::lines::{hold, told_line, Line};
use crate::lists;
use crate::planned::entries::{
    CHECK_PLAN, LIST_OF_PLAN, MATRIX_CHECK_PLAN, MATRIX_LIST_OF_PLAN, PLAN,
};
use crate::record::Record;
use crate::sums::sum_lines;

const N: usize = 2;
const ENTRIES: usize = 32;

/// Places and the reliability there; it is 0 elsewhere.
type Weights = &'static [(usize, u16)];

/// Places and what a plan has there; it has 0 elsewhere.
type Plan = &'static [(usize, u16)];

/// Reliabilities, the steps, the steps done and the plan.
const PLANS: [(Weights, usize, u16, Plan); 24] = [
    (&[], 75, 0, &[]),
    (&[(3, 4096)], 0, 0, &[]),
    (&[(3, 4096)], 1, 1, &[(3, 1)]),
    (&[(3, 4096)], 5, 5, &[(3, 5)]),
    (&[(3, 4096)], 6, 5, &[(3, 5)]),
    (&[(31, 1)], 75, 5, &[(31, 5)]),
    (&[(3, 9), (20, 9)], 1, 1, &[(3, 1)]),
    (&[(3, 9), (20, 9)], 2, 2, &[(3, 1), (20, 1)]),
    (&[(3, 9), (20, 9)], 3, 3, &[(3, 2), (20, 1)]),
    (&[(3, 9), (20, 9)], 75, 10, &[(3, 5), (20, 5)]),
    (&[(3, 2), (20, 4)], 1, 1, &[(20, 1)]),
    (&[(3, 2), (20, 4)], 2, 2, &[(3, 1), (20, 1)]),
    (&[(3, 2), (20, 4)], 3, 3, &[(3, 1), (20, 2)]),
    (&[(3, 4), (20, 2)], 2, 2, &[(3, 2)]),
    (&[(3, 4), (20, 2)], 3, 3, &[(3, 2), (20, 1)]),
    (&[(3, 7), (20, 15)], 2, 2, &[(20, 2)]),
    (&[(3, 10), (20, 19)], 2, 2, &[(3, 1), (20, 1)]),
    (&[(3, 4096), (20, 682)], 75, 5, &[(3, 5)]),
    (&[(3, 4096), (20, 683)], 75, 6, &[(3, 5), (20, 1)]),
    (&[(3, 4092), (20, 682)], 75, 5, &[(3, 5)]),
    (&[(3, 682), (20, 4092)], 75, 6, &[(3, 1), (20, 5)]),
    (&[(3, 681), (20, 4092)], 75, 5, &[(20, 5)]),
    (&[(3, 2048), (4, 2048)], 7, 7, &[(3, 4), (4, 3)]),
    (&[(3, 1), (4, 4095)], 75, 5, &[(4, 5)]),
];

/// Number and place of the refusal, and the steps done.
type Answers = [u16; 3];

const ANOTHER: Answers = [9, 0, 0];
const CLEAR: Weights = &[(3, 4096)];

/// Reliabilities, the steps, a plan from outside, and what it is answered.
const STATED: [(Weights, usize, Plan, Answers); 24] = [
    (CLEAR, 0, &[], [0, 0, 0]),
    (CLEAR, 1, &[(3, 1)], [0, 0, 1]),
    (CLEAR, 5, &[(3, 5)], [0, 0, 5]),
    (CLEAR, 6, &[(3, 5)], [0, 0, 5]),
    (CLEAR, 75, &[(3, 5)], [0, 0, 5]),
    (CLEAR, 76, &[(3, 5)], [2, 0, 0]),
    (CLEAR, 4, &[(3, 5)], ANOTHER),
    (CLEAR, 5, &[(3, 4)], ANOTHER),
    (CLEAR, 0, &[(3, 1)], ANOTHER),
    (CLEAR, 1, &[], ANOTHER),
    (CLEAR, 1, &[(4, 1)], ANOTHER),
    (CLEAR, 6, &[(3, 5), (31, 1)], ANOTHER),
    (CLEAR, 6, &[(0, 1), (3, 5)], ANOTHER),
    (CLEAR, 6, &[(3, 6)], [5, 3, 0]),
    (CLEAR, 6, &[(3, 5), (31, 255)], [5, 31, 0]),
    (&[], 75, &[], [0, 0, 0]),
    (&[], 75, &[(0, 1)], ANOTHER),
    (&[(3, 9), (20, 9)], 1, &[(3, 1)], [0, 0, 1]),
    (&[(3, 9), (20, 9)], 1, &[(20, 1)], ANOTHER),
    (&[(3, 9), (20, 9)], 3, &[(3, 1), (20, 2)], ANOTHER),
    (&[(3, 4096), (20, 4097)], 1, &[(20, 1)], [6, 1, 0]),
    (&[(3, 4096), (20, 4097)], 1, &[(3, 1)], [6, 1, 0]),
    (&[(3, 4097), (20, 4097)], 1, &[(20, 6)], [5, 20, 0]),
    (&[(3, 4097), (20, 4097)], 76, &[(20, 6)], [2, 0, 0]),
];

/// The steps, a plan of the clear mark, a limit, and number, place and count of what is answered.
const WITH_LIMIT: [(usize, Plan, usize, Answers); 7] = [
    (5, &[(3, 5)], 15, [0, 0, 0]),
    (5, &[(3, 5)], 14, [7, 0, 0]),
    (4, &[(3, 5)], 14, [7, 0, 0]),
    (4, &[(3, 5)], 15, ANOTHER),
    (4, &[(3, 5)], 225, ANOTHER),
    (4, &[(3, 5)], 226, [2, 0, 0]),
    (4, &[(3, 6)], 14, [5, 3, 0]),
];

fn laid(numbers: &[(usize, u16)]) -> Vec<u16> {
    let mut all = vec![0; ENTRIES];
    for &(place, number) in numbers {
        all[place] = number;
    }
    all
}

/// A call with the plan as bytes and in a record, and with room for whatever is written.
fn call(weights: Weights, steps: usize, plan: Plan, limit: usize) -> Call {
    let plan: Vec<u8> = laid(plan).into_iter().map(|entry| entry as u8).collect();
    Call {
        limit,
        steps,
        reliabilities: laid(weights),
        records: vec![Record::of(N, &plan)],
        symbols: plan,
        room: 40,
        room_for_scores: 20,
        ..Call::of_sizes(N, 2)
    }
}

fn plan_line(program: Program, (weights, steps, done, plan): (Weights, usize, u16, Plan)) -> Line {
    let call = call(weights, steps, &[], 0);
    let outcome = PLAN.outcome(program, &call);
    let answer = outcome.answer;
    Line {
        text: format!("the plan of {steps} steps for {weights:?}"),
        written: [vec![0, ENTRIES as u16, done], laid(plan)].concat(),
        answered: outcome.numbers(&[answer.number, answer.count, answer.value], ENTRIES),
    }
}

fn stated_line(program: Program, entry: &Entry, call: &Call, written: Answers) -> Line {
    told_line(program, entry, call, written, |answer| answer.value)
}

/// The entries that check a plan tell its steps, those that list it do not.
fn stated_lines(program: Program) -> Vec<Line> {
    let mut lines = Vec::new();
    for (weights, steps, plan, [number, place, done]) in STATED {
        let call = call(weights, steps, plan, 225);
        for entry in [&CHECK_PLAN, &MATRIX_CHECK_PLAN] {
            lines.push(stated_line(program, entry, &call, [number, place, done]));
        }
        for entry in [&LIST_OF_PLAN, &MATRIX_LIST_OF_PLAN] {
            lines.push(stated_line(program, entry, &call, [number, place, 0]));
        }
    }
    for (steps, plan, limit, written) in WITH_LIMIT {
        let call = call(CLEAR, steps, plan, limit);
        for entry in [&LIST_OF_PLAN, &MATRIX_LIST_OF_PLAN] {
            lines.push(stated_line(program, entry, &call, written));
        }
    }
    lines
}

fn lines(program: Program) -> Vec<Line> {
    let mut lines: Vec<Line> = PLANS.map(|line| plan_line(program, line)).into();
    lines.extend(sum_lines(&PLAN, program));
    lines.extend(stated_lines(program));
    lines
}

/// The reliabilities and steps for which the plan is a word's matrix: its symbols are clear, and each
/// is raised as often as the others.
fn put_word(call: &mut Call, _: u8, matrix: Vec<u8>) {
    let whole = |&entry: &u8| if entry > 0 { 4096 } else { 0 };
    call.steps = matrix.iter().copied().map(usize::from).sum();
    call.reliabilities = matrix.iter().map(whole).collect();
    call.records = vec![Record::of(call.n, &matrix)];
    call.symbols = matrix;
}

pub fn compare() {
    hold("plans", lines);
    for entry in [&LIST_OF_PLAN, &MATRIX_LIST_OF_PLAN] {
        hold(entry.name, |program| lists::lines(entry, program, put_word));
    }
}
