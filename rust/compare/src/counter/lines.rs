//! What document 02, order 4, says of single lists, written out.

use crate::counter::case::{Case, Photograph, Settings};
use crate::counter::entry::{Entry, JUDGE, JUDGE_BOTH, OPEN, OPEN_BOTH};
use crate::counter::rows::Rows;
use crate::entry::Program;
use crate::lines::{hold, Line};

const K: usize = 2;

/// The symbols of rows of two, and their scores.
type List = (&'static [u8], &'static [u16]);

/// Number and place of the refusal, value of the call that judges, list and count of the one that
/// opens.
type Answers = [u16; 5];

const ASK: Answers = [0, 0, 2, 0, 0];
const NOTHING: Answers = [0, 0, 3, 0, 0];
const OPEN_FIRST: Answers = [0, 0, 1, 1, 2];
const OPEN_SECOND: Answers = [0, 0, 1, 2, 2];
const SIZES: Answers = [1, 0, 0, 0, 0];
const SETTING: Answers = [2, 0, 0, 0, 0];
const LENGTH: Answers = [3, 0, 0, 0, 0];

const fn symbol(place: u16) -> Answers {
    [5, place, 0, 0, 0]
}

const NONE: List = (&[], &[]);
const ONE: List = (&[1, 0], &[3]);
const OTHER: List = (&[0, 1], &[3]);
const TWO: List = (&[1, 0, 0, 1], &[5, 3]);
const SMUDGED: List = (&[1, 16], &[3]);
const RISING: List = (&[1, 0, 0, 1], &[3, 5]);

const ALONE: [(&str, List, usize, Answers); 18] = [
    ("one row", ONE, 1, OPEN_FIRST),
    ("one row, whatever the lead", ONE, usize::MAX, OPEN_FIRST),
    ("a lead that is reached", TWO, 2, OPEN_FIRST),
    ("a lead that is missed", TWO, 3, ASK),
    ("no rows", NONE, 1, NOTHING),
    ("g of 0", TWO, 0, SETTING),
    ("g of 0 and no rows", NONE, 0, SETTING),
    ("g of 0 and scores that rise", RISING, 0, SETTING),
    ("a symbol too many", (&[1, 0, 0], &[3]), 1, LENGTH),
    ("a score too many", (&[1, 0], &[3, 2]), 1, LENGTH),
    ("scores that rise", RISING, 1, LENGTH),
    ("equal scores", (&[0, 1, 1, 0], &[3, 3]), 1, ASK),
    (
        "equal scores, greater symbol first",
        (&[1, 0, 0, 1], &[3, 3]),
        1,
        LENGTH,
    ),
    ("a message twice", (&[1, 0, 1, 0], &[5, 3]), 1, LENGTH),
    (
        "a message twice, another between",
        (&[1, 0, 0, 1, 1, 0], &[5, 4, 3]),
        1,
        LENGTH,
    ),
    ("a symbol of 15", (&[15, 15], &[3]), 1, OPEN_FIRST),
    ("a symbol of 16", SMUDGED, 1, symbol(1)),
    (
        "a symbol of 16, and scores that rise",
        (&[16, 0, 0, 1], &[3, 5]),
        1,
        LENGTH,
    ),
];

const TOGETHER: [(&str, List, List, usize, Answers); 15] = [
    ("first messages that differ", ONE, OTHER, 1, ASK),
    ("the same message", ONE, ONE, 1, OPEN_FIRST),
    ("the first reaches the lead", TWO, ONE, 2, OPEN_FIRST),
    ("the first misses the lead", TWO, ONE, 3, ASK),
    ("the second misses the lead", ONE, TWO, 3, OPEN_FIRST),
    ("no rows in the first", NONE, TWO, 2, OPEN_SECOND),
    (
        "no rows in the first, a lead that is missed",
        NONE,
        TWO,
        3,
        ASK,
    ),
    ("no rows in the second", TWO, NONE, 2, OPEN_FIRST),
    ("no rows", NONE, NONE, 1, NOTHING),
    ("g of 0", ONE, ONE, 0, SETTING),
    ("scores that rise in the second", ONE, RISING, 1, LENGTH),
    ("a symbol of 16 in the first", SMUDGED, ONE, 1, symbol(1)),
    ("a symbol of 16 in the second", TWO, SMUDGED, 1, symbol(5)),
    ("a symbol of 16 in both", SMUDGED, SMUDGED, 1, symbol(1)),
    (
        "a symbol of 16, then scores that rise",
        SMUDGED,
        RISING,
        1,
        LENGTH,
    ),
];

/// n, k and L of the first list, then of the second, which have one row each.
const SETTINGS: [([Settings; 2], Answers); 9] = [
    ([[3, 2, 5], [3, 2, 5]], OPEN_FIRST),
    ([[3, 2, 5], [4, 2, 5]], SETTING),
    ([[3, 2, 5], [3, 3, 5]], SETTING),
    ([[3, 2, 5], [3, 2, 4]], SETTING),
    ([[3, 2, 6], [3, 2, 6]], SETTING),
    ([[3, 2, 0], [3, 2, 0]], SETTING),
    ([[16, 2, 1], [16, 2, 1]], SIZES),
    ([[3, 2, 1], [3, 4, 1]], SIZES),
    ([[1, 2, 6], [3, 2, 1]], SIZES),
];

fn rows((symbols, scores): List) -> Rows {
    Rows {
        symbols: symbols.to_vec(),
        scores: scores.to_vec(),
        faults: Vec::new(),
    }
}

fn line(program: Program, entries: [&Entry; 2], case: &Case, what: &str, written: Answers) -> Line {
    let [number, place, value, list, count] = written;
    let answered = |entry: &Entry| {
        let answer = entry.answer(program, case);
        let place = answer.place.try_into().unwrap_or(u16::MAX);
        [answer.number, place, answer.value, answer.count]
    };
    Line {
        text: format!("{what}, in {case:?}"),
        written: vec![number, place, value, 0, number, place, list, count],
        answered: entries.map(answered).concat(),
    }
}

fn both_line(
    program: Program,
    what: &str,
    lists: [List; 2],
    settings: [Settings; 2],
    (lead, written): (usize, Answers),
) -> Line {
    let [first, second] = lists.map(rows);
    let [a, b] = settings;
    let case = Case {
        first: Photograph {
            settings: a,
            rows: &first,
        },
        second: Photograph {
            settings: b,
            rows: &second,
        },
        lead,
    };
    line(program, [&JUDGE_BOTH, &OPEN_BOTH], &case, what, written)
}

fn lines(program: Program) -> Vec<Line> {
    let alone = ALONE.into_iter().map(|(what, list, lead, written)| {
        let rows = rows(list);
        let case = Case::alone(K, &rows, lead);
        line(program, [&JUDGE, &OPEN], &case, what, written)
    });
    let together = TOGETHER.into_iter().map(|(what, a, b, lead, written)| {
        both_line(program, what, [a, b], [[15, K, 5]; 2], (lead, written))
    });
    let settings = SETTINGS.into_iter().map(|(settings, written)| {
        both_line(program, "settings", [ONE, ONE], settings, (1, written))
    });
    alone.chain(together).chain(settings).collect()
}

pub fn compare() {
    hold("counter", lines);
}
