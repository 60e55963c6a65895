//! Rows of sixteen symbols a block.

use super::field::{doubled, product, SYMBOLS};
use second::bound::GREATEST_LIMIT;

pub const BLOCK: usize = 16;
/// As many as the greatest cost needs.
pub const BLOCKS: usize = GREATEST_LIMIT / BLOCK + 1;
/// No cost up to the limit has more monomials up to its bound.
pub const COLUMNS: usize = BLOCK * BLOCKS;

pub type Block = [u8; BLOCK];
pub type Row = [Block; BLOCKS];

#[inline]
pub fn sum(a: &Block, b: &Block) -> Block {
    std::array::from_fn(|column| a[column] ^ b[column])
}

#[inline]
pub fn scaled(block: &Block, factor: u8) -> Block {
    block.map(|symbol| product(factor, symbol))
}

/// Entry c is c times the block.
#[inline]
pub fn multiples(block: &Block) -> [Block; SYMBOLS] {
    let mut multiples = [[0; BLOCK]; SYMBOLS];
    let mut high = *block;
    for half in [1, 2, 4, 8] {
        for c in 0..half {
            multiples[half + c] = sum(&multiples[c], &high);
        }
        high = high.map(doubled);
    }
    multiples
}

#[inline]
pub fn entry(row: &Row, column: usize) -> u8 {
    row[column / BLOCK][column % BLOCK]
}
