//! The planner's entries: how both programs are called, and which faults a call can have.

use crate::call::Call;
use crate::columns::RELIABILITIES;
use crate::entry::Entry;
use crate::faults::{length, room, Choice, LIMIT, ROOM_FOR_ROWS, ROOM_FOR_SCORES, STEPS};
use crate::lent::Lent;
use crate::planned::inputs::{HELD_PLAN, LISTED_HELD_PLAN, LISTED_PLAN, STATED_PLAN};
use crate::sizes::{looks_like, Sizes};
use kv::lent;
use second::field::SYMBOLS;
use second::plan::Stated;
use second::{list, plan, record};

const LENGTH: Choice = length(|call| SYMBOLS * looks_like(call.n));

const PLAN_LENGTH: Choice = Choice {
    put: |made, length| made.plan_length = length,
    ..LENGTH
};

fn stated<'a>(steps: usize, reliabilities: &'a Lent<u16>, plan: &'a Lent<u8>) -> Stated<'a> {
    Stated {
        steps,
        reliabilities: reliabilities.part(),
        entries: plan.part(),
    }
}

pub static PLAN: Entry = Entry {
    name: "plan",
    proved: |call, lent| {
        let (reliabilities, out) = (lent.reliabilities.part(), lent.out.part_mut());
        lent::plan(call.n, call.steps, reliabilities, out)
    },
    second: |call, lent| {
        let (reliabilities, out) = (lent.reliabilities.part(), lent.out.part_mut());
        plan::plan(call.n, call.steps, reliabilities, out)
    },
    refusals: &[1, 2, 3, 4, 6],
    sizes: Sizes::N,
    choices: &[STEPS, room(|call| SYMBOLS * looks_like(call.n)), LENGTH],
    input: RELIABILITIES,
};

pub static CHECK_PLAN: Entry = Entry {
    name: "check plan",
    proved: |call, lent| {
        let (reliabilities, plan) = (lent.reliabilities.part(), lent.symbols.part());
        lent::check_plan(call.n, call.steps, reliabilities, plan)
    },
    second: |call, lent| {
        let stated = stated(call.steps, &lent.reliabilities, &lent.symbols);
        plan::check_plan(call.n, stated)
    },
    refusals: &[1, 2, 3, 5, 6, 9],
    sizes: Sizes::N,
    choices: &[STEPS, LENGTH, PLAN_LENGTH],
    input: STATED_PLAN,
};

pub static LIST_OF_PLAN: Entry = Entry {
    name: "list of plan",
    proved: |call, lent| {
        let (reliabilities, plan) = (lent.reliabilities.part(), lent.symbols.part());
        let (rows, scores) = (lent.out.part_mut(), lent.scores.part_mut());
        let Call {
            n, k, limit, steps, ..
        } = *call;
        lent::list_of_plan(n, k, limit, steps, reliabilities, plan, rows, scores)
    },
    second: |call, lent| {
        let stated = stated(call.steps, &lent.reliabilities, &lent.symbols);
        let (rows, scores) = (lent.out.part_mut(), lent.scores.part_mut());
        list::list_of_plan(call.n, call.k, call.limit, stated, rows, scores)
    },
    refusals: &[1, 2, 3, 4, 5, 6, 7, 9],
    sizes: Sizes::Both,
    choices: &[
        LIMIT,
        STEPS,
        ROOM_FOR_ROWS,
        ROOM_FOR_SCORES,
        LENGTH,
        PLAN_LENGTH,
    ],
    input: LISTED_PLAN,
};

pub static MATRIX_CHECK_PLAN: Entry = Entry {
    name: "matrix check plan",
    proved: |call, lent| {
        let (record, reliabilities) = (lent.records[0].of_library(), lent.reliabilities.part());
        lent::matrix_check_plan(record, call.steps, reliabilities)
    },
    second: |call, lent| {
        let (record, reliabilities) = (lent.records[0].of_second(), lent.reliabilities.part());
        record::check_plan(record, call.steps, reliabilities)
    },
    refusals: &[1, 2, 3, 5, 6, 9],
    sizes: Sizes::N,
    choices: &[STEPS, LENGTH],
    input: HELD_PLAN,
};

pub static MATRIX_LIST_OF_PLAN: Entry = Entry {
    name: "matrix list of plan",
    proved: |call, lent| {
        let (record, reliabilities) = (lent.records[0].of_library(), lent.reliabilities.part());
        let (rows, scores) = (lent.out.part_mut(), lent.scores.part_mut());
        let Call {
            k, limit, steps, ..
        } = *call;
        lent::matrix_list_of_plan(record, k, limit, steps, reliabilities, rows, scores)
    },
    second: |call, lent| {
        let (record, reliabilities) = (lent.records[0].of_second(), lent.reliabilities.part());
        let (rows, scores) = (lent.out.part_mut(), lent.scores.part_mut());
        let Call {
            k, limit, steps, ..
        } = *call;
        record::list_of_plan(record, k, limit, steps, reliabilities, rows, scores)
    },
    refusals: &[1, 2, 3, 4, 5, 6, 7, 9],
    sizes: Sizes::Both,
    choices: &[LIMIT, STEPS, ROOM_FOR_ROWS, ROOM_FOR_SCORES, LENGTH],
    input: LISTED_HELD_PLAN,
};
