//! y-roots. Of few message symbols every message is tried; of more the coefficients are fixed from
//! the highest power of x down, by what the substituted polynomial leads with.

use crate::bound::monomials;
use crate::code::{every_message, value_at, LEAST_SIZE, MOST_POSITIONS};
use crate::field::{power, times, GREATEST_SYMBOL, SYMBOLS};
use crate::polynomial::{binomial_is_odd, Polynomial};
use crate::refusal::{symbol_above, unless_refused, Refusal};
use crate::Answer;

pub const MOST_COEFFICIENTS: usize = 256;

/// The most message symbols for which every message is tried.
pub const FEW_SYMBOLS: usize = 4;

/// The coefficients of 1, y, y² and so on.
type InY = Vec<u8>;

fn every_symbol() -> std::ops::RangeInclusive<u8> {
    0..=GREATEST_SYMBOL
}

/// Every message tried, in order. One whose Q(x, f(x)) is not zero at some symbol x is no root.
fn by_trying_all(q: &Polynomial, k: usize) -> Vec<Vec<u8>> {
    let is_zero: [[bool; SYMBOLS]; SYMBOLS] =
        std::array::from_fn(|x| std::array::from_fn(|y| q.value_at(x as u8, y as u8) == 0));
    let zero_at = |f: &[u8], x: u8| is_zero[usize::from(x)][usize::from(value_at(f, x))];
    every_message(k)
        .filter(|f| every_symbol().all(|x| zero_at(f, x)))
        .filter(|f| q.vanishes_on(f))
        .collect()
}

/// Q(x, y + c x^j).
fn substituted(q: &Polynomial, c: u8, j: usize) -> Polynomial {
    let mut total = Polynomial::zero(q.powers().1);
    for ((a, b), coefficient) in q.terms() {
        for t in (0..=b).filter(|&t| binomial_is_odd(b, t)) {
            let added = times(coefficient, power(c, b - t));
            total.add_monomial((a + j * (b - t), t), added);
        }
    }
    total
}

/// What Q leads with, x weighing 1 and y weighing j, as a polynomial in y at x = 1. Where no root of
/// interest has a power of x above j, it vanishes at the coefficient of x^j of each of them.
fn leading(q: &Polynomial, j: usize) -> InY {
    let weight = |(a, b): (usize, usize)| a + j * b;
    let terms = q.terms();
    let greatest = terms.iter().map(|&(monomial, _)| weight(monomial)).max();
    let mut leading = vec![0; q.powers().1];
    for (monomial, coefficient) in terms {
        if Some(weight(monomial)) == greatest {
            leading[monomial.1] = coefficient;
        }
    }
    leading
}

/// All roots of Q whose highest power of x is at most j, each from f_0 on.
fn from_the_top(q: &Polynomial, j: usize) -> Vec<Vec<u8>> {
    let led_by = |c: u8| {
        let rest = substituted(q, c, j);
        let lower = match j {
            0 => Vec::from_iter(rest.vanishes_on(&[]).then(Vec::new)),
            _ => from_the_top(&rest, j - 1),
        };
        let completed = move |f: Vec<u8>| [f, vec![c]].concat();
        lower.into_iter().map(completed)
    };
    let leading = leading(q, j);
    every_symbol()
        .filter(|&c| value_at(&leading, c) == 0)
        .flat_map(led_by)
        .collect()
}

/// All roots, ordered by f_0, then f_1 and so on.
pub(crate) fn in_order(q: &Polynomial, k: usize) -> Vec<Vec<u8>> {
    if k <= FEW_SYMBOLS {
        return by_trying_all(q, k);
    }
    let mut roots = from_the_top(q, k - 1);
    roots.sort();
    roots
}

/// N(D) is above D, which therefore decides where it is great.
pub(crate) fn too_many_coefficients(v: usize, degree: usize) -> bool {
    degree >= MOST_COEFFICIENTS || monomials(v, degree) > MOST_COEFFICIENTS
}

pub fn roots(degree: usize, k: usize, coefficients: &[u8], out: &mut [u8]) -> Answer {
    if !(LEAST_SIZE..=MOST_POSITIONS).contains(&k) {
        return Refusal::Sizes.answer();
    }
    let v = k - 1;
    if too_many_coefficients(v, degree) {
        return Refusal::Setting.answer();
    }
    let tests = [
        (coefficients.len() != monomials(v, degree)).then_some(Refusal::Length),
        (out.len() < k * (degree / v)).then_some(Refusal::Room),
        symbol_above(GREATEST_SYMBOL, coefficients),
        coefficients
            .iter()
            .all(|&c| c == 0)
            .then_some(Refusal::Zero),
    ];
    unless_refused(&tests, || {
        let roots = in_order(&Polynomial::from_list(v, degree, coefficients), k);
        let symbols = roots.concat();
        out[..symbols.len()].copy_from_slice(&symbols);
        Answer {
            count: roots.len() as u16,
            ..Answer::default()
        }
    })
}
