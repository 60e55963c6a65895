//! The entries that take a record: how both programs are called, and which faults a call can have.

use crate::contents::MATRIX;
use crate::edited::inputs::{COLUMN, ENTRY, RECORD, ROOM};
use crate::edited::pairs::PAIR;
use crate::entry::Entry;
use crate::faults::{length, room, Choice, LIMIT, ROOM_FOR_ROWS, ROOM_FOR_SCORES};
use crate::sizes::{huge_sizes, lengths_up_to, looks_like, Sizes};
use kv::{lent, Refusal};
use second::code::MOST_POSITIONS;
use second::field::SYMBOLS;
use second::interpolation::ROOM_FOR_COEFFICIENTS;
use second::record::{self, PLACES};

/// The length of lent memory that is written throughout.
const ENTRIES: Choice = Choice {
    put: |made, entries| made.call.room = entries,
    ..length(|_| PLACES)
};

const TOTALS: Choice = Choice {
    put: |made, totals| made.call.room_for_scores = totals,
    ..length(|_| MOST_POSITIONS)
};

const POSITION: Choice = Choice {
    fault: Refusal::Sizes,
    right: |call| looks_like(call.n).saturating_sub(1),
    allowed: |last, position| position <= last,
    around: |last| vec![0, last, last + 1, MOST_POSITIONS - 1, MOST_POSITIONS],
    far: |_| huge_sizes(),
    put: |made, position| made.call.edit.position = position,
};

const SYMBOL: Choice = Choice {
    fault: Refusal::Sizes,
    right: |_| SYMBOLS - 1,
    allowed: |last, symbol| symbol <= last,
    around: |last| vec![0, last, last + 1],
    far: |_| huge_sizes(),
    put: |made, symbol| made.call.edit.symbol = symbol,
};

const OTHER_N: Choice = Choice {
    fault: Refusal::Sizes,
    right: |call| call.n,
    allowed: |n, other| other == n,
    around: |n| vec![n, n.wrapping_sub(1), n.wrapping_add(1), MOST_POSITIONS],
    far: |n| [8, 16, 32, 60, 63].map(|bits| n + (1 << bits)).to_vec(),
    put: |made, other| made.call.edit.other_n = other,
};

pub static FRESH: Entry = Entry {
    name: "matrix fresh",
    proved: |call, lent| {
        let (totals, entries) = (lent.scores.part_mut(), lent.out.part_mut());
        lent::matrix_fresh(call.n, totals, entries)
    },
    second: |call, lent| {
        let (totals, entries) = (lent.scores.part_mut(), lent.out.part_mut());
        record::fresh(call.n, totals, entries)
    },
    refusals: &[1, 3],
    sizes: Sizes::N,
    choices: &[TOTALS, ENTRIES],
    input: ROOM,
};

pub static OF_BYTES: Entry = Entry {
    name: "matrix of bytes",
    proved: |call, lent| {
        let (totals, entries) = (lent.scores.part_mut(), lent.out.part_mut());
        lent::matrix_of_bytes(call.n, lent.symbols.part(), totals, entries)
    },
    second: |call, lent| {
        let (totals, entries) = (lent.scores.part_mut(), lent.out.part_mut());
        record::of_bytes(call.n, lent.symbols.part(), totals, entries)
    },
    refusals: &[1, 3, 5],
    sizes: Sizes::N,
    choices: &[TOTALS, ENTRIES, length(|call| SYMBOLS * looks_like(call.n))],
    input: MATRIX,
};

pub static SET_ENTRY: Entry = Entry {
    name: "matrix set entry",
    proved: |call, lent| {
        let (record, edit) = (lent.records[0].edited_by_library(), call.edit);
        lent::matrix_set_entry(record, edit.position, edit.symbol, edit.entry)
    },
    second: |call, lent| {
        let (record, edit) = (lent.records[0].edited_by_second(), call.edit);
        record::set_entry(record, edit.position, edit.symbol, edit.entry)
    },
    refusals: &[1, 3, 5],
    sizes: Sizes::N,
    choices: &[POSITION, SYMBOL],
    input: ENTRY,
};

pub static CLEAR_COLUMN: Entry = Entry {
    name: "matrix clear column",
    proved: |call, lent| {
        let record = lent.records[0].edited_by_library();
        lent::matrix_clear_column(record, call.edit.position)
    },
    second: |call, lent| {
        let record = lent.records[0].edited_by_second();
        record::clear_column(record, call.edit.position)
    },
    refusals: &[1, 3, 5],
    sizes: Sizes::N,
    choices: &[POSITION],
    input: COLUMN,
};

pub static ADD: Entry = Entry {
    name: "matrix add",
    proved: |_, lent| {
        let (first, second) = lent.records.split_at_mut(1);
        lent::matrix_add(first[0].edited_by_library(), second[0].of_library())
    },
    second: |_, lent| {
        let (first, second) = lent.records.split_at_mut(1);
        record::add(first[0].edited_by_second(), second[0].of_second())
    },
    refusals: &[1, 3, 5],
    sizes: Sizes::N,
    choices: &[OTHER_N],
    input: PAIR,
};

pub static COST_AND_BOUND: Entry = Entry {
    name: "matrix cost and bound",
    proved: |call, lent| lent::matrix_cost_and_bound(lent.records[0].of_library(), call.k),
    second: |call, lent| record::cost_and_bound(lent.records[0].of_second(), call.k),
    refusals: &[1, 3, 5],
    sizes: Sizes::Both,
    choices: &[],
    input: RECORD,
};

pub static INTERPOLATE: Entry = Entry {
    name: "matrix interpolate",
    proved: |call, lent| {
        let (record, out) = (lent.records[0].of_library(), lent.out.part_mut());
        lent::matrix_interpolate(record, call.k, call.limit, out)
    },
    second: |call, lent| {
        let (record, out) = (lent.records[0].of_second(), lent.out.part_mut());
        record::interpolate(record, call.k, call.limit, out)
    },
    refusals: &[1, 2, 3, 4, 5, 7],
    sizes: Sizes::Both,
    choices: &[
        LIMIT,
        Choice {
            around: lengths_up_to,
            ..room(|_| ROOM_FOR_COEFFICIENTS)
        },
    ],
    input: RECORD,
};

pub static LIST: Entry = Entry {
    name: "matrix list",
    proved: |call, lent| {
        let (record, rows) = (lent.records[0].of_library(), lent.out.part_mut());
        let scores = lent.scores.part_mut();
        lent::matrix_list(record, call.k, call.limit, rows, scores)
    },
    second: |call, lent| {
        let (record, rows) = (lent.records[0].of_second(), lent.out.part_mut());
        let scores = lent.scores.part_mut();
        record::list(record, call.k, call.limit, rows, scores)
    },
    refusals: &[1, 2, 3, 4, 5, 7],
    sizes: Sizes::Both,
    choices: &[LIMIT, ROOM_FOR_ROWS, ROOM_FOR_SCORES],
    input: RECORD,
};
