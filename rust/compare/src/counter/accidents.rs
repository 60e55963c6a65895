//! Small lists of few symbols and few scores, where every fault and none come about by accident.

use crate::counter::rows::{in_order, Rows};
use second::field::GREATEST_SYMBOL;
use tags::Random;

const MOST_ROWS: usize = 4;
const GREATEST_SCORE: usize = 3;
const FEW_SYMBOLS: u8 = 2;

fn random_rows(random: &mut Random, k: usize) -> Vec<(Vec<u8>, u16)> {
    let count = random.between(0, MOST_ROWS);
    let mut row = || {
        let message = random.bytes(k, FEW_SYMBOLS - 1);
        (message, random.between(0, GREATEST_SCORE) as u16)
    };
    (0..count).map(|_| row()).collect()
}

fn spoil(random: &mut Random, rows: &mut Rows) {
    if random.happens(12) {
        rows.symbols.push(0);
    }
    if random.happens(12) {
        rows.scores.pop();
    }
    if random.happens(6) && !rows.symbols.is_empty() {
        let place = random.between(0, rows.symbols.len() - 1);
        rows.symbols[place] = GREATEST_SYMBOL + 1;
    }
}

/// Mostly in order and without a message twice.
pub fn accident(random: &mut Random, k: usize) -> Rows {
    let mut rows = random_rows(random, k);
    if !random.happens(4) {
        rows.sort();
        rows.dedup_by(|a, b| a.0 == b.0);
    }
    let (messages, scores): (Vec<_>, Vec<_>) = rows.iter().cloned().unzip();
    let mut rows = match random.happens(4) {
        true => Rows::new(&messages, &scores),
        false => in_order(rows),
    };
    spoil(random, &mut rows);
    rows
}
