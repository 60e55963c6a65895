//! The messages whose score is above the bound.

use super::field::{power, product, ORDER, POWERS, SYMBOLS};
use super::interpolation::polynomial;
use super::lanes::{lane, BITS, LANES};
use super::roots::roots;
use super::rows::MOST_WORDS;
use crate::insertion::insert;

/// For each place of a message and symbol there: the symbol's part of the codeword, a lane for each
/// position.
static ENCODED: [[u64; SYMBOLS]; ORDER] = encoded();

const fn encoded() -> [[u64; SYMBOLS]; ORDER] {
    let mut encoded = [[0; SYMBOLS]; ORDER];
    let mut at = 0;
    while at < ORDER * SYMBOLS * ORDER {
        let (place, symbol, position) = (at / ORDER / SYMBOLS, at / ORDER % SYMBOLS, at % ORDER);
        let value = product(symbol, power(POWERS[position] as usize, place)) as u64;
        encoded[place][symbol] |= value << (BITS * position);
        at += 1;
    }
    encoded
}

fn score(matrix: &[u8], message: &[u8]) -> u16 {
    let parts = message.iter().zip(&ENCODED);
    let codeword = parts.fold(0, |sum, (&symbol, part)| sum ^ part[usize::from(symbol)]);
    let columns = matrix.as_chunks::<SYMBOLS>().0.iter().enumerate();
    let entries = columns.map(|(position, column)| column[lane(codeword, position)]);
    entries.map(u16::from).sum()
}

/// Writes rows and scores, and answers how many there are.
pub fn list(k: usize, matrix: &[u8], rows: &mut [u8], scores: &mut [u16]) -> usize {
    let mut coefficients = [0; LANES * MOST_WORDS];
    let bound = polynomial(k - 1, matrix, &mut coefficients);
    let mut count = 0;
    roots(k, &bound, &coefficients, |message| {
        let score = score(matrix, message);
        if usize::from(score) > bound.degree {
            insert(message, score, count, rows, scores);
            count += 1;
        }
    });
    count
}
