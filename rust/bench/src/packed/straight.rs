//! What follows a simple root: one symbol at each level, and sixteen powers of x are enough.

use super::field::quotient;
use super::lanes::{lane, BITS};
use super::shift::shift;

/// The message's first symbol is a simple root where x is 0; writes those after it.
pub fn go_straight_on(rows: &mut [[u64; 1]], message: &mut [u8]) {
    let mut height = rows.len();
    for level in 1..message.len() {
        shift(&mut rows[..height], message[level - 1].into());
        rows[0][0] >>= BITS;
        // Row b begins with x to the power (b - 1) times level, and no power above the levels left
        // matters.
        height = height.min((message.len() - 1 - level) / level + 2);
        for b in 2..height {
            rows[b][0] <<= BITS * (b - 1);
        }
        message[level] = quotient(lane(rows[0][0], 0), lane(rows[1][0], 0)) as u8;
    }
}
