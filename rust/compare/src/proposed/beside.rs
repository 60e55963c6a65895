//! Proposals beside one that is a yes.

use crate::planted::monomials;
use crate::sizes::with_entry;
use second::field::{plus, times, GREATEST_SYMBOL, SYMBOLS};
use tags::Random;

/// A symbol other than 0.
fn any_other(random: &mut Random) -> u8 {
    random.between(1, GREATEST_SYMBOL.into()) as u8
}

/// Whether a power of y, times any power of x, passes: it does where y is 0, as often as it says,
/// and nowhere else, for no position has x 0.
fn power_passes(power_of_y: usize, matrix: &[u8]) -> bool {
    let passes =
        |(place, &m): (usize, &u8)| m == 0 || place % SYMBOLS == 0 && usize::from(m) <= power_of_y;
    matrix.iter().enumerate().all(passes)
}

/// The coefficients of a yes with the one at the place another, and whether that is a yes too: what
/// was added must pass by itself.
pub fn one_off(
    (v, degree): (usize, usize),
    matrix: &[u8],
    coefficients: &[u8],
    place: usize,
    random: &mut Random,
) -> (Vec<u8>, bool) {
    let changed = plus(coefficients[place], any_other(random));
    let changed = with_entry(coefficients, place, changed);
    let (_, power_of_y) = monomials(v, degree)[place];
    let is_zero = changed.iter().all(|&c| c == 0);
    let is_yes = !is_zero && power_passes(power_of_y, matrix);
    (changed, is_yes)
}

/// The coefficients times a symbol other than 0.
pub fn multiple(coefficients: &[u8], random: &mut Random) -> Vec<u8> {
    let symbol = any_other(random);
    coefficients.iter().map(|&c| times(symbol, c)).collect()
}

/// The same coefficients up to another degree: more zeros, or fewer of what was there.
pub fn up_to(v: usize, degree: usize, coefficients: &[u8]) -> Vec<u8> {
    let mut changed = coefficients.to_vec();
    changed.resize(monomials(v, degree).len(), 0);
    changed
}

/// The weighted degree of the last monomial whose coefficient is not 0.
pub fn own_degree(v: usize, degree: usize, coefficients: &[u8]) -> usize {
    let last = coefficients.iter().rposition(|&c| c != 0);
    let (a, b) = monomials(v, degree)[last.unwrap_or(0)];
    a + v * b
}
