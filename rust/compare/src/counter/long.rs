//! Lists so long that a place in them does not fit sixteen bits.

use crate::counter::rows::Rows;
use kv::Refusal;
use second::code::MOST_POSITIONS;
use second::field::{GREATEST_SYMBOL, SYMBOLS};

const K: usize = MOST_POSITIONS;
/// The fewest rows whose last place does not fit sixteen bits.
pub const FAR: usize = (1 << 16) / K + 1;

/// The digits of a number, lowest first.
fn message(number: usize) -> Vec<u8> {
    let digit = |place: usize| (number >> (4 * place)) % SYMBOLS;
    (0..K).map(|place| digit(place) as u8).collect()
}

/// So many rows, of falling scores, with different messages.
pub fn long_list(rows: usize) -> Rows {
    let messages: Vec<Vec<u8>> = (0..rows).map(message).collect();
    let scores: Vec<u16> = (0..rows as u16).rev().collect();
    Rows::new(&messages, &scores)
}

pub fn last_bad(rows: &Rows) -> Rows {
    let last = rows.symbols.len() - 1;
    rows.with(Refusal::Symbol(last), |rows| {
        rows.symbols[last] = GREATEST_SYMBOL + 1;
    })
}

/// The last row has the first one's message.
pub fn last_as_first(rows: &Rows) -> Rows {
    let last = rows.symbols.len() - K;
    rows.with(Refusal::Length, |rows| rows.symbols.copy_within(..K, last))
}
