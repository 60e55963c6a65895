//! The interpolating polynomial.

use super::conditions::conditions;
use super::elimination::first_dependent;
use super::lanes::LANES;
use super::monomials::{bound, Bound};
use super::points::Points;
use super::rows::for_words;
use super::substitution::solve;

/// Writes the coefficients, and answers the bound.
pub fn polynomial(v: usize, matrix: &[u8], out: &mut [u8]) -> Bound {
    let points = Points::of(matrix);
    let bound = bound(v, points.cost);
    let words = points.cost / LANES + 1;
    let mut rows = for_words!(words, conditions(&points, v, &bound));
    let dependent = first_dependent(&mut rows, words);
    solve(&rows, words, dependent, &mut out[..bound.count]);
    bound
}
