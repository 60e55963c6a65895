//! Reliabilities and the multiplicities that they give.

use crate::code::n_allowed;
use crate::field::SYMBOLS;
use crate::refusal::{unless_refused, Refusal};
use crate::Answer;

/// The most that the reliabilities of a position sum to, and what a multiplicity is a part of.
pub const WHOLE: u64 = 4096;
pub const LEAST_LEVEL: usize = 1;
pub const GREATEST_LEVEL: usize = 5;

/// The entries of n positions, for any n.
pub fn entries(n: usize) -> u128 {
    SYMBOLS as u128 * n as u128
}

/// The first position whose reliabilities sum to more than the whole.
pub fn column_above(reliabilities: &[u16]) -> Option<Refusal> {
    let sum = |column: &[u16]| column.iter().map(|&r| u64::from(r)).sum::<u64>();
    reliabilities
        .chunks(SYMBOLS)
        .position(|column| sum(column) > WHOLE)
        .map(Refusal::Column)
}

/// The whole part of the level times the reliability over the whole.
pub fn multiplicity(level: usize, reliability: u16) -> u8 {
    (level as u64 * u64::from(reliability) / WHOLE) as u8
}

pub fn multiplicities(n: usize, level: usize, reliabilities: &[u16], out: &mut [u8]) -> Answer {
    let tests = [
        (!n_allowed(n)).then_some(Refusal::Sizes),
        (!(LEAST_LEVEL..=GREATEST_LEVEL).contains(&level)).then_some(Refusal::Setting),
        (reliabilities.len() as u128 != entries(n)).then_some(Refusal::Length),
        ((out.len() as u128) < entries(n)).then_some(Refusal::Room),
        column_above(reliabilities),
    ];
    unless_refused(&tests, || {
        for index in 0..reliabilities.len() {
            out[index] = multiplicity(level, reliabilities[index]);
        }
        Answer {
            count: reliabilities.len() as u16,
            ..Answer::default()
        }
    })
}
