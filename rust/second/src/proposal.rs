//! A polynomial from outside: whether it passes through every point of a matrix, by each of its
//! Hasse derivatives there.

use crate::bound::{monomials, GREATEST_MULTIPLICITY};
use crate::code::{sizes_allowed, x_of};
use crate::field::{GREATEST_SYMBOL, SYMBOLS};
use crate::polynomial::Polynomial;
use crate::refusal::{answered, refuse, refuse_found, symbol_above, Refusal};
use crate::roots::{in_order, too_many_coefficients};
use crate::weights::entries;
use crate::Answer;

const YES: u16 = 1;
const NO: u16 = 0;

/// The coefficients, in the monomials' order, of those of weighted degree at most `degree`.
#[derive(Clone, Copy)]
pub struct Proposal<'a> {
    pub degree: usize,
    pub coefficients: &'a [u8],
}

impl Proposal<'_> {
    /// Whether N(D) is above the most coefficients.
    pub fn has_too_many(&self, k: usize) -> bool {
        too_many_coefficients(k - 1, self.degree)
    }

    pub fn has_right_length(&self, k: usize) -> bool {
        self.coefficients.len() == monomials(k - 1, self.degree)
    }

    pub fn has_lengths(&self, n: usize, k: usize, matrix: &[u8]) -> bool {
        matrix.len() as u128 == entries(n) && self.has_right_length(k)
    }

    /// The refusal of the first multiplicity that is too great, or else of the first coefficient,
    /// whose indexes run on.
    pub fn symbol_above(&self, matrix: &[u8]) -> Option<Refusal> {
        let of_coefficient = symbol_above(GREATEST_SYMBOL, self.coefficients);
        let after = |refusal: Refusal| Refusal::Symbol(matrix.len() + refusal.place());
        symbol_above(GREATEST_MULTIPLICITY, matrix).or(of_coefficient.map(after))
    }

    fn polynomial(&self, k: usize) -> Polynomial {
        Polynomial::from_list(k - 1, self.degree, self.coefficients)
    }

    /// Whether it is not all zero and passes through every point with its multiplicity.
    pub fn is_yes(&self, k: usize, matrix: &[u8]) -> bool {
        let q = self.polynomial(k);
        let passes = |(index, &m): (usize, &u8)| {
            let point = (x_of(index / SYMBOLS), (index % SYMBOLS) as u8);
            passes_at(&q, point, m.into())
        };
        self.coefficients.iter().any(|&c| c != 0) && matrix.iter().enumerate().all(passes)
    }

    /// Ordered by f_0, then f_1 and so on.
    pub fn roots(&self, k: usize) -> Vec<Vec<u8>> {
        in_order(&self.polynomial(k), k)
    }
}

/// Whether every Hasse derivative of order s + t below m is zero at the point.
fn passes_at(q: &Polynomial, point: (u8, u8), m: usize) -> bool {
    let mut orders = (0..m).flat_map(|s| (0..m - s).map(move |t| (s, t)));
    orders.all(|order| q.derivative_at(order, point) == 0)
}

/// Whether it is a yes, where nothing is refused.
fn checked(n: usize, k: usize, matrix: &[u8], proposal: Proposal) -> Result<bool, Refusal> {
    refuse(!sizes_allowed(n, k), Refusal::Sizes)?;
    refuse(proposal.has_too_many(k), Refusal::Setting)?;
    refuse(!proposal.has_lengths(n, k, matrix), Refusal::Length)?;
    refuse_found(proposal.symbol_above(matrix))?;
    Ok(proposal.is_yes(k, matrix))
}

pub fn check_proposal(n: usize, k: usize, matrix: &[u8], proposal: Proposal) -> Answer {
    let told = |is_yes: bool| Answer {
        value: if is_yes { YES } else { NO },
        ..Answer::default()
    };
    answered(checked(n, k, matrix, proposal).map(told))
}
