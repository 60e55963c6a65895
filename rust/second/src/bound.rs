//! The cost of a multiplicity matrix, and the bound on the score.

use crate::code::sizes_allowed;
use crate::refusal::{symbol_above, unless_refused, Refusal};
use crate::weights::entries;
use crate::Answer;

pub const GREATEST_MULTIPLICITY: u8 = 5;
pub const GREATEST_LIMIT: usize = 225;

/// What one entry m adds to the cost: m(m+1)/2.
pub fn cost_of_entry(m: u8) -> usize {
    let m = usize::from(m);
    m * (m + 1) / 2
}

pub fn cost(matrix: &[u8]) -> usize {
    matrix.iter().map(|&m| cost_of_entry(m)).sum()
}

/// N(D), by counting the pairs (a, b) with a + vb at most D.
pub fn monomials(v: usize, d: usize) -> usize {
    let powers_of_x = |b: usize| (0..=d).filter(|a| a + v * b <= d).count();
    (0..=d / v).map(powers_of_x).sum()
}

/// The smallest D with N(D) above the cost.
pub fn bound(v: usize, cost: usize) -> usize {
    let mut degrees = 0..;
    let smallest = degrees.find(|&d| monomials(v, d) > cost);
    smallest.expect("N(D) is above D")
}

pub fn cost_and_bound(n: usize, k: usize, matrix: &[u8]) -> Answer {
    let tests = [
        (!sizes_allowed(n, k)).then_some(Refusal::Sizes),
        (matrix.len() as u128 != entries(n)).then_some(Refusal::Length),
        symbol_above(GREATEST_MULTIPLICITY, matrix),
    ];
    unless_refused(&tests, || Answer {
        cost: cost(matrix) as u16,
        bound: bound(k - 1, cost(matrix)) as u16,
        ..Answer::default()
    })
}
