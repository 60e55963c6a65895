//! A symbol added to y.

use super::field::square;
use super::lanes::{add, masks, scaled};

/// Adds each row whose power has the bit, times the factor, to that of the power without it.
fn shift_bit<const WORDS: usize>(rows: &mut [[u64; WORDS]], bit: usize, factor: usize) {
    let masks = masks(factor);
    for b in (0..rows.len()).filter(|b| b & bit != 0) {
        let more = rows[b].map(|word| scaled(word, &masks));
        add(&mut rows[b ^ bit], &more);
    }
}

/// Row b becomes that of y^b where y + symbol is put for y.
pub fn shift<const WORDS: usize>(rows: &mut [[u64; WORDS]], symbol: usize) {
    let (mut bit, mut factor) = (1, symbol);
    while bit < rows.len() {
        shift_bit(rows, bit, factor);
        factor = square(factor);
        bit *= 2;
    }
}
