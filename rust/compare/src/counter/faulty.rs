//! Lists with faults: of the shape, of the order, messages twice, symbols that are too great.

use crate::counter::rows::{first_differ_at, list, Rows};
use kv::Refusal;
use second::field::GREATEST_SYMBOL;
use tags::Random;

const FALLING: [u16; 6] = [90, 80, 50, 40, 20, 0];
const TIES: [u16; 5] = [9, 7, 7, 7, 2];
const BAD_SYMBOLS: [u8; 3] = [GREATEST_SYMBOL + 1, 128, u8::MAX];

/// A symbol, a row or a score too many or too few, and more symbols that look like none in 8 and in
/// 16 bits.
fn bad_shapes(random: &mut Random, k: usize) -> Vec<Rows> {
    let mut all = Vec::new();
    for scores in [&[][..], &[3], &[5, 3], &FALLING] {
        let good = list(random, k, scores);
        let mut put = |change: &dyn Fn(&mut Rows)| all.push(good.with(Refusal::Length, change));
        for more in [1, k, 1 << 8, 1 << 16] {
            put(&|rows| rows.symbols.resize(rows.symbols.len() + more, 0));
        }
        put(&|rows| rows.scores.push(0));
        if !scores.is_empty() {
            put(&|rows| rows.symbols.truncate(rows.symbols.len() - 1));
            put(&|rows| rows.symbols.truncate(rows.symbols.len() - k));
            put(&|rows| rows.scores.truncate(scores.len() - 1));
        }
    }
    all
}

/// Scores that rise, once, anywhere.
fn rising_scores(random: &mut Random, k: usize) -> Vec<Rows> {
    let good = list(random, k, &FALLING);
    let swapped = |row: usize| good.with(Refusal::Length, |rows| rows.scores.swap(row, row + 1));
    (0..FALLING.len() - 1).map(swapped).collect()
}

fn swap_messages(rows: &mut Rows, k: usize, a: usize, b: usize) {
    for place in 0..k {
        rows.symbols.swap(k * a + place, k * b + place);
    }
}

/// Equal scores whose messages are in the wrong order, in a longer list and by any one symbol.
fn ties_out_of_order(random: &mut Random, k: usize) -> Vec<Rows> {
    let good = list(random, k, &TIES);
    let swapped = |(a, b)| good.with(Refusal::Length, |rows| swap_messages(rows, k, a, b));
    let in_list = [(1, 2), (2, 3), (1, 3)].map(swapped);
    let by_symbol = |place: usize| {
        let [smaller, greater] = first_differ_at(place, k);
        Rows::new(&[greater, smaller], &[7, 7]).with(Refusal::Length, |_| ())
    };
    in_list.into_iter().chain((0..k).map(by_symbol)).collect()
}

/// Equal scores whose order a symbol decides that is too great: in order, and not.
fn ties_of_bad_symbols(k: usize) -> Vec<Rows> {
    let mut all = Vec::new();
    for place in 0..k {
        let [smaller, mut greater] = first_differ_at(place, k);
        greater[place] = BAD_SYMBOLS[place % BAD_SYMBOLS.len()];
        let right = Rows::new(&[smaller.clone(), greater.clone()], &[7, 7]);
        let wrong = Rows::new(&[greater, smaller], &[7, 7]).with(Refusal::Length, |_| ());
        all.push(right.with(Refusal::Symbol(k + place), |_| ()));
        all.push(wrong.with(Refusal::Symbol(place), |_| ()));
    }
    all
}

/// Any two rows of a list with the same message, neighbours and others.
fn repeats(random: &mut Random, k: usize) -> Vec<Rows> {
    let good = list(random, k, &FALLING);
    let mut all = vec![list(random, k, &[7]).with(Refusal::Length, |rows| {
        rows.symbols.extend_from_within(..);
        rows.scores.push(7);
    })];
    for later in 1..FALLING.len() {
        for row in 0..later {
            all.push(good.with(Refusal::Length, |rows| {
                rows.symbols.copy_within(k * row..k * row + k, k * later);
            }));
        }
    }
    all
}

/// A symbol that is too great, in each place, alone and with another one later; scores that fall
/// keep such rows in order.
fn bad_symbols(random: &mut Random, k: usize) -> Vec<Rows> {
    let good = list(random, k, &FALLING);
    let places = good.symbols.len();
    let mut all = Vec::new();
    for place in 0..places {
        let bad = BAD_SYMBOLS[random.between(0, 1)];
        let one = good.with(Refusal::Symbol(place), |rows| rows.symbols[place] = bad);
        if place + 1 < places {
            let later = random.between(place + 1, places - 1);
            all.push(one.with(Refusal::Symbol(later), |rows| rows.symbols[later] = u8::MAX));
        }
        all.push(one);
    }
    all
}

/// The list with a symbol that is too great, where it has any. Its lengths or its scores have the
/// fault that it had, and keep it.
fn and_bad_symbol(random: &mut Random, rows: &Rows) -> Option<Rows> {
    let place = random.between(0, rows.symbols.len().checked_sub(1)?);
    Some(rows.with(Refusal::Symbol(place), |rows| {
        rows.symbols[place] = BAD_SYMBOLS[0]
    }))
}

pub fn faulty_lists(random: &mut Random, k: usize) -> Vec<Rows> {
    let mut all = [bad_shapes(random, k), rising_scores(random, k)].concat();
    let with_symbols: Vec<Rows> = all
        .iter()
        .filter_map(|rows| and_bad_symbol(random, rows))
        .collect();
    all.extend(with_symbols);
    all.extend(ties_out_of_order(random, k));
    all.extend(ties_of_bad_symbols(k));
    all.extend(repeats(random, k));
    all.extend(bad_symbols(random, k));
    all
}
