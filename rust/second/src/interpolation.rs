//! The interpolating polynomial, by Koetter's algorithm: for each power of y the smallest one that
//! leads with that power and meets the conditions so far; in the end the smallest of these.
//!
//! Two polynomials that pass, lead with the same smallest monomial and have leading coefficient 1
//! are equal, for their difference passes and would lead with a smaller one.

use crate::bound::{bound, cost, GREATEST_LIMIT, GREATEST_MULTIPLICITY};
use crate::code::{sizes_allowed, x_of};
use crate::field::{over, SYMBOLS};
use crate::polynomial::{monomials_in_order, rank, Polynomial, Rank};
use crate::refusal::{symbol_above, unless_refused, Refusal};
use crate::weights::entries;
use crate::Answer;

pub const ROOM_FOR_COEFFICIENTS: usize = 246;

/// The Hasse derivative of order s in x and t in y is zero at (x, y).
struct Condition {
    x: u8,
    y: u8,
    s: usize,
    t: usize,
}

/// All conditions of a matrix. For each t those of smaller s come first, so that whatever meets the
/// conditions up to one of them goes on meeting them when it is multiplied by x.
fn conditions(matrix: &[u8]) -> Vec<Condition> {
    let of_entry = |(index, &m): (usize, &u8)| {
        let m = usize::from(m);
        let (x, y) = (x_of(index / SYMBOLS), (index % SYMBOLS) as u8);
        let orders = (0..m).flat_map(move |t| (0..m - t).map(move |s| (s, t)));
        orders.map(move |(s, t)| Condition { x, y, s, t })
    };
    matrix.iter().enumerate().flat_map(of_entry).collect()
}

struct Candidate {
    polynomial: Polynomial,
    leading: Rank,
}

impl Candidate {
    fn power_of_y(v: usize, b: usize, powers_of_y: usize) -> Self {
        let mut polynomial = Polynomial::zero(powers_of_y);
        polynomial.add_monomial((0, b), 1);
        Candidate {
            polynomial,
            leading: rank(v, (0, b)),
        }
    }
}

fn derivatives(candidates: &[Candidate], condition: &Condition) -> Vec<u8> {
    let (order, point) = ((condition.s, condition.t), (condition.x, condition.y));
    let derivative = |candidate: &Candidate| candidate.polynomial.derivative_at(order, point);
    candidates.iter().map(derivative).collect()
}

/// Makes every candidate meet one more condition.
fn meet(candidates: &mut [Candidate], condition: &Condition) {
    let values = derivatives(candidates, condition);
    let failing = (0..candidates.len()).filter(|&j| values[j] != 0);
    let Some(smallest) = failing.clone().min_by_key(|&j| candidates[j].leading) else {
        return;
    };
    let pivot = candidates[smallest].polynomial.clone();
    for j in failing.filter(|&j| j != smallest) {
        let factor = over(values[j], values[smallest]);
        candidates[j].polynomial.add_multiple(factor, &pivot);
    }
    candidates[smallest].polynomial = pivot.times_x_plus(condition.x);
    candidates[smallest].leading.0 += 1;
}

/// The polynomial's coefficients up to the bound, in the monomials' order.
fn interpolated(v: usize, bound: usize, matrix: &[u8]) -> Vec<u8> {
    let powers_of_y = bound / v + 1;
    let mut candidates: Vec<Candidate> = (0..powers_of_y)
        .map(|b| Candidate::power_of_y(v, b, powers_of_y))
        .collect();
    for condition in conditions(matrix) {
        meet(&mut candidates, &condition);
    }
    let smallest = candidates.iter().min_by_key(|candidate| candidate.leading);
    let Candidate {
        polynomial,
        leading: (degree, b),
    } = smallest.expect("y^0 has a candidate");
    let leading_coefficient = polynomial.coefficient((degree - v * b, *b));
    monomials_in_order(v, bound)
        .into_iter()
        .map(|monomial| over(polynomial.coefficient(monomial), leading_coefficient))
        .collect()
}

pub fn interpolate(n: usize, k: usize, limit: usize, matrix: &[u8], out: &mut [u8]) -> Answer {
    let tests = [
        (!sizes_allowed(n, k)).then_some(Refusal::Sizes),
        (limit > GREATEST_LIMIT).then_some(Refusal::Setting),
        (matrix.len() as u128 != entries(n)).then_some(Refusal::Length),
        (out.len() < ROOM_FOR_COEFFICIENTS).then_some(Refusal::Room),
        symbol_above(GREATEST_MULTIPLICITY, matrix),
        (cost(matrix) > limit).then_some(Refusal::Cost),
    ];
    unless_refused(&tests, || {
        let bound = bound(k - 1, cost(matrix));
        let coefficients = interpolated(k - 1, bound, matrix);
        out[..coefficients.len()].copy_from_slice(&coefficients);
        Answer {
            bound: bound as u16,
            count: coefficients.len() as u16,
            ..Answer::default()
        }
    })
}
