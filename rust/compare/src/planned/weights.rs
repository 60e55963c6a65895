//! Reliabilities to plan with: those that tie, those at which a plan stops, and others.

use crate::columns::{columns, good_sums, GREATEST_SUM};
use second::code::LEAST_SIZE;
use second::field::SYMBOLS;
use second::weights::GREATEST_LEVEL;
use tags::{
    close_codewords, random_codeword, rounded_down, shared_weights, soft_weights,
    with_erased_marks, Random,
};

/// Reliabilities of n positions.
pub type Weights = fn(&mut Random, usize) -> Vec<u16>;

pub const KINDS: [Weights; 11] = [
    erased,
    equal,
    alone,
    clear,
    tied,
    nearly_tied,
    few_tied,
    at_the_stop,
    worn,
    shared,
    any_sums,
];

/// Those of words, which are listed more often than others, and any.
pub const LISTED: [Weights; 3] = [worn, shared, any_weights];

/// Divided by multiplicities, many of them are equal; sixteen of the greatest fit a column.
const TIED: [u16; 9] = [0, 12, 15, 20, 30, 60, 120, 180, 240];
/// The raises of an entry up to the greatest, and the one at which a plan stops.
const RAISES: u16 = GREATEST_LEVEL as u16 + 1;
/// So many times as much fits a column beside fifteen others that are one more.
const GREATEST_OTHER: usize = 190;

fn erased(_: &mut Random, n: usize) -> Vec<u16> {
    vec![0; SYMBOLS * n]
}

/// One number throughout, up to that of which columns sum to the whole.
fn equal(random: &mut Random, n: usize) -> Vec<u16> {
    let greatest = GREATEST_SUM / SYMBOLS;
    let weight = [1, 2, random.between(3, greatest - 1), greatest][random.between(0, 3)];
    vec![weight as u16; SYMBOLS * n]
}

fn any_place(random: &mut Random, n: usize) -> usize {
    random.between(0, SYMBOLS * n - 1)
}

/// One symbol of one mark.
fn alone(random: &mut Random, n: usize) -> Vec<u16> {
    let mut weights = erased(random, n);
    let weight = [1, random.between(2, GREATEST_SUM), GREATEST_SUM][random.between(0, 2)];
    weights[any_place(random, n)] = weight as u16;
    weights
}

/// Single symbols, some of them erased.
fn clear(random: &mut Random, n: usize) -> Vec<u16> {
    let mut weights = erased(random, n);
    for column in weights.chunks_mut(SYMBOLS) {
        column[random.between(0, SYMBOLS - 1)] = GREATEST_SUM as u16;
    }
    let erased = random.between(0, n / 2);
    with_erased_marks(random, &weights, erased)
}

fn of(random: &mut Random, n: usize, numbers: &[u16]) -> Vec<u16> {
    let mut any = |_| numbers[random.between(0, numbers.len() - 1)];
    (0..SYMBOLS * n).map(&mut any).collect()
}

fn tied(random: &mut Random, n: usize) -> Vec<u16> {
    of(random, n, &TIED)
}

/// One more or one less than what ties.
fn nearly_tied(random: &mut Random, n: usize) -> Vec<u16> {
    let weights = tied(random, n);
    let moved = |&weight: &u16| (weight + random.between(0, 2) as u16).saturating_sub(1);
    weights.iter().map(moved).collect()
}

/// Few places, so that all of them are raised again and again.
fn few_tied(random: &mut Random, n: usize) -> Vec<u16> {
    let mut weights = erased(random, n);
    for _ in 0..random.between(1, 2 * n) {
        let weight = TIED[random.between(1, TIED.len() - 1)];
        weights[any_place(random, n)] = weight;
    }
    weights
}

/// Some that come to the greatest entry, and then tie with others or nearly so: whether a plan stops
/// there is a matter of places.
fn at_the_stop(random: &mut Random, n: usize) -> Vec<u16> {
    let other = random.between(2, GREATEST_OTHER) as u16;
    let others = [0, other - 1, other, other + 1];
    let kept = random.between(1, others.len());
    let mut weights = of(random, n, &others[..kept]);
    let position = random.between(0, n - 1);
    for (i, column) in weights.chunks_mut(SYMBOLS).enumerate() {
        if i == position || random.happens(n) {
            column[random.between(0, SYMBOLS - 1)] = RAISES * other;
        }
    }
    weights
}

/// A soft word, which is a codeword for every k, rounded down and with marks erased.
fn worn(random: &mut Random, n: usize) -> Vec<u16> {
    let word = random_codeword(random, n, LEAST_SIZE);
    let share = random.between(0, GREATEST_SUM);
    let soft = soft_weights(random, &word, share);
    let rounded = rounded_down(random, &soft);
    let erased = random.between(0, n / 2);
    with_erased_marks(random, &rounded, erased)
}

/// Words that share each position evenly.
fn shared(random: &mut Random, n: usize) -> Vec<u16> {
    let count = random.between(2, GREATEST_LEVEL);
    shared_weights(&close_codewords(random, n, LEAST_SIZE, count))
}

/// Columns of any sum up to the greatest, and of just that.
fn any_sums(random: &mut Random, n: usize) -> Vec<u16> {
    let sums = good_sums(random, n);
    columns(random, &sums)
}

pub fn any_weights(random: &mut Random, n: usize) -> Vec<u16> {
    KINDS[random.between(0, KINDS.len() - 1)](random, n)
}
