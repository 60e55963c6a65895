//! A plan that is made is taken, and listed as any other matrix is.

use crate::call::{Call, Outcome};
use crate::edited::LIST;
use crate::entry::{Entry, Program};
use crate::list_of_multiplicities;
use crate::lists::with_room;
use crate::planned::entries::{
    CHECK_PLAN, LIST_OF_PLAN, MATRIX_CHECK_PLAN, MATRIX_LIST_OF_PLAN, PLAN,
};
use crate::planned::weights::LISTED;
use crate::record::Record;
use crate::sizes::Sizes;
use kv::lent::Answer;
use second::bound::GREATEST_LIMIT;
use second::field::SYMBOLS;
use second::plan::GREATEST_STEPS;
use std::process::exit;
use tags::Random;

const SEED: u64 = 17;
const LEAST_ROWS: usize = 150;

/// What lists a plan, and what lists the same as any other matrix.
const LISTS: [[&Entry; 2]; 2] = [
    [&LIST_OF_PLAN, &list_of_multiplicities::ENTRY],
    [&MATRIX_LIST_OF_PLAN, &LIST],
];

/// The call with the plan that is made for it, and the steps done.
fn with_made_plan(call: &Call) -> (Call, u16) {
    let roomy = Call {
        room: SYMBOLS * call.n,
        ..call.clone()
    };
    let Outcome { answer, memory } = PLAN.outcome(Program::Proved, &roomy);
    let plan = memory.out.part().to_vec();
    let raised: u16 = plan.iter().copied().map(u16::from).sum();
    PLAN.found(call, &answer.value, &raised);
    let call = Call {
        records: vec![Record::of(call.n, &plan)],
        symbols: plan,
        ..call.clone()
    };
    (call, answer.value)
}

/// Ends the run unless the plan that is made is taken, with the same steps, and listed as the same
/// matrix is; answers how many rows are listed.
fn taken_alike(call: &Call) -> usize {
    let (call, value) = with_made_plan(call);
    let taken = Answer {
        value,
        ..Answer::default()
    };
    for entry in [&CHECK_PLAN, &MATRIX_CHECK_PLAN] {
        let answer = entry.outcome(Program::Proved, &call).answer;
        entry.found(&call, &answer, &taken);
    }
    let mut rows = 0;
    for lists in LISTS {
        let [of_plan, of_matrix] = lists.map(|entry| entry.outcome(Program::Proved, &call));
        lists[0].found(&call, &of_plan, &of_matrix);
        rows = of_plan.answer.count;
    }
    rows.into()
}

pub fn compare() {
    let mut random = Random::new(SEED);
    let (mut plans, mut rows) = (0, 0);
    for (n, k) in Sizes::Both.allowed() {
        for weights in LISTED {
            rows += taken_alike(&Call {
                limit: GREATEST_LIMIT,
                steps: random.between(0, GREATEST_STEPS),
                reliabilities: weights(&mut random, n),
                ..with_room(n, k)
            });
            plans += 1;
        }
    }
    if rows < LEAST_ROWS {
        eprintln!("{rows} rows were listed; at least {LEAST_ROWS} were to be");
        exit(1);
    }
    println!("compared plans: {plans} that are made are taken and listed as matrices are, {rows} rows listed");
}
