//! Codewords, and words that wear leaves of them.

use crate::random::Random;
use second::code::x_of;
use second::field::{plus, power, times, GREATEST_SYMBOL};

pub fn random_codeword(random: &mut Random, n: usize, k: usize) -> Vec<u8> {
    let mut codeword = vec![0; n];
    second::code::encode(n, k, &random.bytes(k, GREATEST_SYMBOL), &mut codeword);
    codeword
}

/// Codewords that agree with one another at k-1 positions and nowhere else.
pub fn close_codewords(random: &mut Random, n: usize, k: usize, count: usize) -> Vec<Vec<u8>> {
    let base = random_codeword(random, n, k);
    let agreed = some_positions(random, n, k - 1);
    let difference = |i: usize| {
        let factors = agreed.iter().map(|&j| plus(x_of(i), x_of(j)));
        factors.fold(1, times)
    };
    let symbol = |i: usize, c: usize| plus(base[i], times(c as u8, difference(i)));
    let word = |c: usize| (0..n).map(|i| symbol(i, c)).collect();
    (0..count).map(word).collect()
}

/// A codeword, and words of the same message with a symbol too many, no two of them the same.
pub fn words_of_one_more(random: &mut Random, n: usize, k: usize, count: usize) -> Vec<Vec<u8>> {
    let base = random_codeword(random, n, k);
    let symbol = |i: usize, c: usize| plus(base[i], times(c as u8, power(x_of(i), k)));
    let word = |c: usize| (0..n).map(|i| symbol(i, c)).collect();
    (0..count).map(word).collect()
}

/// So many of the positions, all of them where there are fewer.
pub(crate) fn some_positions(random: &mut Random, n: usize, count: usize) -> Vec<usize> {
    let mut positions: Vec<usize> = (0..n).collect();
    let mut position = || positions.swap_remove(random.between(0, positions.len() - 1));
    (0..count.min(n)).map(|_| position()).collect()
}

/// The word with other symbols at so many of its positions.
pub fn with_wrong_marks(random: &mut Random, word: &[u8], wrong: usize) -> Vec<u8> {
    let mut changed = word.to_vec();
    for position in some_positions(random, word.len(), wrong) {
        changed[position] ^= random.between(1, GREATEST_SYMBOL.into()) as u8;
    }
    changed
}
