//! Lists to put beside each other: they begin alike, differ in the first symbol or in the last, and
//! have the faults that two lists can share.

use crate::counter::rows::Rows;
use kv::Refusal;
use second::field::GREATEST_SYMBOL;

/// A list by its rows: which of the three messages, with which score.
type Sketch = &'static [(usize, u16)];

const NO_ROWS: Sketch = &[];
const ONE_ROW: Sketch = &[(A, 9)];
const TWO_ROWS: Sketch = &[(A, 9), (B, 7)];
const RISING: Sketch = &[(A, 7), (B, 9)];
const TIE_OUT_OF_ORDER: Sketch = &[(C, 7), (A, 7)];
const MESSAGE_TWICE: Sketch = &[(A, 9), (B, 8), (A, 7)];
const GOOD: [Sketch; 7] = [
    NO_ROWS,
    ONE_ROW,
    TWO_ROWS,
    &[(B, 9)],
    &[(C, 7)],
    &[(A, 7), (C, 7)],
    &[(B, 300), (A, 44), (C, 44)],
];

const A: usize = 0;
const B: usize = 1;
const C: usize = 2;

/// A, 1 and zeros; B, zeros and 1; C, as A but for its last symbol.
fn messages(k: usize) -> [Vec<u8>; 3] {
    let [mut a, mut b] = [(); 2].map(|_| vec![0; k]);
    a[0] = 1;
    b[k - 1] = 1;
    let mut c = a.clone();
    c[k - 1] = GREATEST_SYMBOL;
    [a, b, c]
}

fn drawn(k: usize, sketch: Sketch) -> Rows {
    let messages = messages(k);
    let (rows, scores): (Vec<&[u8]>, Vec<u16>) = sketch
        .iter()
        .map(|&(m, score)| (&*messages[m], score))
        .unzip();
    Rows::new(&rows, &scores)
}

fn refused(rows: Rows) -> Rows {
    rows.with(Refusal::Length, |_| ())
}

/// Refused for their order, a message twice, a score too few and a symbol too few.
fn no_lists(k: usize) -> Vec<Rows> {
    let [mut fewer_scores, mut fewer_symbols] = [(); 2].map(|_| drawn(k, TWO_ROWS));
    fewer_scores.scores.pop();
    fewer_symbols.symbols.pop();
    let sketches = [RISING, TIE_OUT_OF_ORDER, MESSAGE_TWICE].map(|sketch| drawn(k, sketch));
    let lists = sketches.into_iter().chain([fewer_scores, fewer_symbols]);
    lists.map(refused).collect()
}

fn with_symbol(rows: &Rows, place: usize, symbol: u8) -> Rows {
    rows.with(Refusal::Symbol(place), |rows| rows.symbols[place] = symbol)
}

/// One row or two with a symbol too great in the first place or in the last, or in both rows.
fn with_bad_symbols(k: usize) -> Vec<Rows> {
    let (one, two) = (drawn(k, ONE_ROW), drawn(k, TWO_ROWS));
    let first = with_symbol(&two, 0, GREATEST_SYMBOL + 1);
    vec![
        with_symbol(&one, k - 1, u8::MAX),
        with_symbol(&two, 2 * k - 1, GREATEST_SYMBOL + 1),
        with_symbol(&first, k, u8::MAX),
        first,
    ]
}

/// No rows, rows, rows that rise, a bad symbol, and both of these.
pub fn of_each_kind(k: usize) -> Vec<Rows> {
    let (two, rising) = (drawn(k, TWO_ROWS), refused(drawn(k, RISING)));
    vec![
        drawn(k, NO_ROWS),
        with_symbol(&two, 0, u8::MAX),
        with_symbol(&rising, 0, u8::MAX),
        two,
        rising,
    ]
}

pub fn all(k: usize) -> Vec<Rows> {
    let good = GOOD.map(|sketch| drawn(k, sketch)).to_vec();
    let faulty = [no_lists(k), with_bad_symbols(k)].concat();
    [good, faulty, of_each_kind(k)].concat()
}
