//! Words of sixteen lanes, a symbol in each, the first lane in the lowest bits.

use super::field::SYMBOLS;

pub const LANES: usize = 16;
/// The bits of a lane.
pub const BITS: usize = 4;
/// 1 in every lane.
pub const ONES: u64 = 0x1111_1111_1111_1111;
const LOW_BITS: u64 = 7 * ONES;

pub type Words<const WORDS: usize> = [u64; WORDS];

/// The bits of each lane, spread.
pub type Spread<const WORDS: usize> = [Words<WORDS>; BITS];

#[inline]
pub fn lane(word: u64, place: usize) -> usize {
    (word >> (BITS * place)) as usize % SYMBOLS
}

/// The first lane that is not 0.
#[inline]
pub fn first_lane(word: u64) -> Option<usize> {
    (word != 0).then(|| word.trailing_zeros() as usize / BITS)
}

/// 1 in the lanes that are 0.
#[inline]
pub fn zero_lanes(word: u64) -> u64 {
    let pairs = word | word >> 2;
    !(pairs | pairs >> 1) & ONES
}

/// α times each lane.
#[inline]
pub fn doubled(word: u64) -> u64 {
    let carried = word >> 3 & ONES;
    (word & LOW_BITS) << 1 ^ carried ^ carried << 1
}

/// 15 in the lanes that have the bit, 0 in the others.
#[inline]
pub fn spread(word: u64, bit: usize) -> u64 {
    let bits = word >> bit & ONES;
    (bits << BITS).wrapping_sub(bits)
}

#[inline]
pub fn spreads<const WORDS: usize>(words: &Words<WORDS>) -> Spread<WORDS> {
    let mut spreads = [[0; WORDS]; BITS];
    for (bit, spreads) in spreads.iter_mut().enumerate() {
        for word in 0..WORDS {
            spreads[word] = spread(words[word], bit);
        }
    }
    spreads
}

/// Puts a symbol into a lane that is 0.
#[inline]
pub fn put<const WORDS: usize>(words: &mut Words<WORDS>, at: usize, symbol: u8) {
    words[at / LANES] |= u64::from(symbol) << (BITS * (at % LANES));
}

/// A factor's bits, each as a word of ones or zeros.
#[inline]
pub fn masks(factor: usize) -> [u64; BITS] {
    std::array::from_fn(|bit| (factor as u64 >> bit & 1).wrapping_neg())
}

/// Each lane times the factor that has these masks.
#[inline]
pub fn scaled(word: u64, masks: &[u64; BITS]) -> u64 {
    let two = doubled(word);
    let four = doubled(two);
    let eight = doubled(four);
    (word & masks[0] ^ two & masks[1]) ^ (four & masks[2] ^ eight & masks[3])
}

#[inline]
pub fn add<const WORDS: usize>(words: &mut [u64; WORDS], more: &[u64; WORDS]) {
    for word in 0..WORDS {
        words[word] ^= more[word];
    }
}

/// Entry c becomes c times the word.
#[inline]
pub fn multiples(word: u64) -> [u64; SYMBOLS] {
    let two = doubled(word);
    let four = doubled(two);
    let doublings = [word, two, four, doubled(four)];
    let mut multiples = [0; SYMBOLS];
    for c in 1..SYMBOLS {
        multiples[c] = multiples[c & (c - 1)] ^ doublings[c.trailing_zeros() as usize];
    }
    multiples
}
