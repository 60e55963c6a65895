//! What solves the triangle that elimination leaves.

use super::field::SYMBOLS;
use super::lanes::{doubled, lane, masks, put, Spread, BITS, LANES};
use super::rows::{for_words, part, Row, MOST_WORDS};

/// The coefficients found so far, by their bits: 15 in the lanes that have the bit.
type Found = Spread<MOST_WORDS>;

fn put_found(found: &mut Found, at: usize, coefficient: usize) {
    for (bits, mask) in found.iter_mut().zip(masks(coefficient)) {
        put(bits, at, mask as u8 % SYMBOLS as u8);
    }
}

/// The sum of all lanes.
fn total(mut word: u64) -> usize {
    for bits in [32, 16, 8, 4] {
        word ^= word >> bits;
    }
    lane(word, 0)
}

/// The sum of the row's entries, each times the coefficient found.
fn sum<const WORDS: usize>(row: &Row, found: &Found) -> usize {
    let from_the_top = found.iter().rev();
    let of_lanes = from_the_top.fold(0, |sum, bits| {
        let words = part::<WORDS>(row).iter().zip(part::<WORDS>(bits));
        words.fold(doubled(sum), |sum, (entries, bits)| sum ^ entries & bits)
    });
    total(of_lanes)
}

/// Writes the coefficients: 1 for the dependent column, none behind it, and those before it from
/// the last to the first.
pub fn solve(rows: &[Row], words: usize, dependent: usize, out: &mut [u8]) {
    let unused = LANES * (MOST_WORDS - words);
    let mut found = [[0; MOST_WORDS]; BITS];
    put_found(&mut found, unused + dependent, 1);
    out[dependent..].fill(0);
    out[dependent] = 1;
    for (place, row) in rows[..dependent].iter().enumerate().rev() {
        let coefficient = for_words!(words - place / LANES, sum(row, &found));
        put_found(&mut found, unused + place, coefficient);
        out[place] = coefficient as u8;
    }
}
