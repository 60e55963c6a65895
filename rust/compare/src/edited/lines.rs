//! What document 02, order 5, says of single records, written out.

use crate::call::{Call, Edit};
use crate::edited::entries::{
    ADD, CLEAR_COLUMN, COST_AND_BOUND, FRESH, INTERPOLATE, LIST, OF_BYTES, SET_ENTRY,
};
use crate::entry::{Entry, Program};
use crate::lines::{hold, told_line, Line};
use crate::lists;
use crate::record::Record;

/// Places and what a matrix has there; it has 0 elsewhere.
type Entries = &'static [(usize, u8)];

/// Number and place of the refusal, and the cost.
type Answers = [u16; 3];

const N: usize = 2;
const HELD: Entries = &[(3, 2), (20, 5)];
const SIZES: Answers = [1, 0, 0];
const LENGTH: Answers = [3, 0, 0];

const fn costs(cost: u16) -> Answers {
    [0, 0, cost]
}

const fn symbol(place: u16) -> Answers {
    [5, place, 0]
}

const FRESH_ONES: [(usize, Answers); 4] = [(1, SIZES), (2, costs(0)), (15, costs(0)), (16, SIZES)];

const OF_ENTRIES: [(Entries, Answers); 4] = [
    (&[], costs(0)),
    (HELD, costs(18)),
    (&[(3, 2), (20, 6)], symbol(20)),
    (&[(3, 255), (20, 6)], symbol(3)),
];

/// A position, a symbol and the entry that is set there.
const SET: [([usize; 2], u8, Answers); 10] = [
    ([0, 0], 5, costs(33)),
    ([1, 15], 1, costs(19)),
    ([1, 4], 5, costs(18)),
    ([1, 4], 2, costs(6)),
    ([1, 4], 0, costs(3)),
    ([1, 4], 6, symbol(20)),
    ([0, 3], 255, symbol(3)),
    ([2, 0], 1, SIZES),
    ([0, 16], 1, SIZES),
    ([2, 16], 6, SIZES),
];

const CLEARED: [(usize, Answers); 4] = [(0, costs(15)), (1, costs(3)), (2, SIZES), (14, SIZES)];

/// n and the entries of the record that is added.
const ADDED: [(usize, Entries, Answers); 9] = [
    (2, &[], costs(18)),
    (2, &[(3, 3)], costs(30)),
    (2, &[(2, 1), (31, 5)], costs(34)),
    (2, &[(3, 4)], symbol(3)),
    (2, &[(3, 4), (20, 1)], symbol(3)),
    (2, &[(20, 251)], symbol(20)),
    (2, &[(7, 6)], symbol(7)),
    (2, &[(2, 6), (3, 4)], symbol(2)),
    (3, &[(3, 6)], SIZES),
];

/// What is done to the record, and what each entry that takes it answers.
type Change = (&'static str, fn(&mut Record), Answers);

const CHANGED: [Change; 12] = [
    ("a cost that is one more", |r| r.cost += 1, LENGTH),
    ("a cost that is one less", |r| r.cost -= 1, LENGTH),
    ("a total that is one more", |r| r.totals[0] += 1, LENGTH),
    ("a total of an unused column", |r| r.totals[2] = 1, LENGTH),
    ("totals exchanged", |r| r.totals.swap(0, 1), LENGTH),
    ("an entry stored nowhere", |r| r.entries[3] = 3, LENGTH),
    ("a total too few", |r| r.totals.truncate(14), LENGTH),
    ("an entry too many", |r| r.entries.push(0), LENGTH),
    ("an unused entry", |r| *r = held(N, &[(32, 1)]), LENGTH),
    ("an unused 6", |r| *r = held(N, &[(239, 6)]), LENGTH),
    ("a 6", |r| *r = held(N, &[(5, 6), (6, 255)]), symbol(5)),
    (
        "a 6, and a cost that is one more",
        |r| {
            *r = held(N, &[(5, 6)]);
            r.cost += 1;
        },
        LENGTH,
    ),
];

/// Those that take a record.
const TAKING: [&Entry; 6] = [
    &SET_ENTRY,
    &CLEAR_COLUMN,
    &ADD,
    &COST_AND_BOUND,
    &INTERPOLATE,
    &LIST,
];

fn matrix(length: usize, entries: Entries) -> Vec<u8> {
    let mut matrix = vec![0; length];
    for &(place, entry) in entries {
        matrix[place] = entry;
    }
    matrix
}

fn held(n: usize, entries: Entries) -> Record {
    Record::of(n, &matrix(240, entries))
}

/// A call with the records that go in, and with room for one that comes out.
fn call(n: usize, records: Vec<Record>, edit: Edit) -> Call {
    Call {
        limit: 225,
        room: 240,
        room_for_scores: 15,
        records,
        edit,
        ..Call::of_sizes(n, 2)
    }
}

fn line(program: Program, entry: &Entry, call: &Call, written: Answers) -> Line {
    told_line(program, entry, call, written, |answer| answer.cost)
}

fn made_lines(program: Program) -> Vec<Line> {
    let fresh = FRESH_ONES.map(|(n, written)| {
        let call = call(n, Vec::new(), Edit::default());
        line(program, &FRESH, &call, written)
    });
    let of_bytes = OF_ENTRIES.map(|(entries, written)| {
        let symbols = matrix(32, entries);
        let call = Call {
            symbols,
            ..call(N, Vec::new(), Edit::default())
        };
        line(program, &OF_BYTES, &call, written)
    });
    fresh.into_iter().chain(of_bytes).collect()
}

fn edited_lines(program: Program) -> Vec<Line> {
    let set = SET.map(|([position, symbol], entry, written)| {
        let edit = Edit {
            position,
            symbol,
            entry,
            ..Edit::default()
        };
        let call = call(N, vec![held(N, HELD)], edit);
        line(program, &SET_ENTRY, &call, written)
    });
    let cleared = CLEARED.map(|(position, written)| {
        let edit = Edit {
            position,
            ..Edit::default()
        };
        let call = call(N, vec![held(N, HELD)], edit);
        line(program, &CLEAR_COLUMN, &call, written)
    });
    let added = ADDED.map(|(n, entries, written)| {
        let records = vec![held(N, HELD), held(n, entries)];
        line(program, &ADD, &call(N, records, Edit::default()), written)
    });
    set.into_iter().chain(cleared).chain(added).collect()
}

/// The record changed, taken by each entry, and as the one that is added.
fn changed_lines(program: Program) -> Vec<Line> {
    let mut lines = Vec::new();
    for (what, change, written) in CHANGED {
        let (fresh, mut changed) = (held(N, &[]), held(N, HELD));
        change(&mut changed);
        let records = [vec![changed.clone(), fresh.clone()], vec![fresh, changed]];
        let [first, second] = records.map(|records| Call {
            room: 246,
            room_for_scores: 20,
            ..call(N, records, Edit::default())
        });
        let mut push = |entry: &Entry, call: &Call| {
            let line = line(program, entry, call, written);
            let text = format!("{what}: {}", line.text);
            lines.push(Line { text, ..line });
        };
        for entry in TAKING {
            push(entry, &first);
        }
        push(&ADD, &second);
    }
    lines
}

fn lines(program: Program) -> Vec<Line> {
    let mut lines = made_lines(program);
    lines.extend(edited_lines(program));
    lines.extend(changed_lines(program));
    lines
}

pub fn compare() {
    hold("records", lines);
    hold(LIST.name, |program| {
        lists::lines(&LIST, program, |call, _, matrix| {
            call.records = vec![Record::of(call.n, &matrix)];
        })
    });
}
