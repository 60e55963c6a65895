//! The roots whose score is above the bound.

use super::field::{point, product, SYMBOLS};
use super::polynomial::interpolate;
use super::roots::roots;
use super::rows::COLUMNS;
use crate::insertion::insert;
use second::code::MOST_POSITIONS;
use second::list::MOST_ROWS;

/// There are no more roots than the highest power of y says, and that is no more than a list has
/// rows for any cost up to the limit.
pub const ROOM_FOR_ROOTS: usize = MOST_ROWS * MOST_POSITIONS;

fn value(message: &[u8], x: u8) -> u8 {
    let from_the_top = message.iter().rev();
    from_the_top.fold(0, |value, &symbol| product(value, x) ^ symbol)
}

fn score(matrix: &[u8], message: &[u8]) -> u16 {
    let entry = |(position, column): (usize, &[u8])| {
        let symbol = value(message, point(position));
        u16::from(column[usize::from(symbol)])
    };
    matrix.chunks_exact(SYMBOLS).enumerate().map(entry).sum()
}

/// Writes the roots whose score is above the bound, with their scores, and answers how many.
pub fn rank(
    k: usize,
    bound: usize,
    matrix: &[u8],
    found: &[u8],
    rows: &mut [u8],
    scores: &mut [u16],
) -> usize {
    let mut count = 0;
    for message in found.chunks_exact(k) {
        let score = score(matrix, message);
        if usize::from(score) > bound {
            insert(message, score, count, rows, scores);
            count += 1;
        }
    }
    count
}

/// Writes rows and scores, and answers how many there are.
pub fn list(k: usize, matrix: &[u8], rows: &mut [u8], scores: &mut [u16]) -> usize {
    let mut coefficients = [0; COLUMNS];
    let (bound, coefficients_count) = interpolate(k, matrix, &mut coefficients);
    let mut found = [0; ROOM_FOR_ROOTS];
    let found_count = roots(bound, k, &coefficients[..coefficients_count], &mut found);
    rank(k, bound, matrix, &found[..k * found_count], rows, scores)
}
