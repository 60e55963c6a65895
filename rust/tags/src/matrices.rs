//! Multiplicity matrices, of words, of weights and others.

use crate::random::Random;
use second::bound::{cost, cost_of_entry, GREATEST_MULTIPLICITY};
use second::field::SYMBOLS;

/// Stands for a mark that cannot be read.
pub const ERASED: u8 = u8::MAX;

/// The matrix with m at each symbol of the word, and zeros at its erased marks.
pub fn hard_word(word: &[u8], m: u8) -> Vec<u8> {
    let mut matrix = vec![0; SYMBOLS * word.len()];
    for (position, &symbol) in word.iter().enumerate() {
        if symbol != ERASED {
            matrix[SYMBOLS * position + usize::from(symbol)] = m;
        }
    }
    matrix
}

/// The matrix with m for each word that has the symbol, up to the greatest multiplicity.
pub fn hard_words(words: &[Vec<u8>], m: u8) -> Vec<u8> {
    let mut matrix = vec![0; SYMBOLS * words[0].len()];
    for added in words.iter().map(|word| hard_word(word, m)) {
        for (entry, more) in matrix.iter_mut().zip(added) {
            *entry = (*entry + more).min(GREATEST_MULTIPLICITY);
        }
    }
    matrix
}

pub fn matrix_of(weights: &[u16], level: usize) -> Vec<u8> {
    let mut matrix = vec![0; weights.len()];
    second::weights::multiplicities(weights.len() / SYMBOLS, level, weights, &mut matrix);
    matrix
}

/// Random entries in random places, up to the given multiplicity, as long as the cost allows.
pub fn random_matrix(random: &mut Random, n: usize, greatest: u8, most_cost: usize) -> Vec<u8> {
    let mut matrix = vec![0; SYMBOLS * n];
    let mut left = most_cost;
    for _ in 0..2 * matrix.len() {
        let place = random.between(0, matrix.len() - 1);
        let m = random.between(1, greatest.into()) as u8;
        if matrix[place] == 0 && cost_of_entry(m) <= left {
            matrix[place] = m;
            left -= cost_of_entry(m);
        }
    }
    matrix
}

/// A matrix within the cost: entries of it taken away at random until it is.
pub fn within_cost(random: &mut Random, mut matrix: Vec<u8>, most_cost: usize) -> Vec<u8> {
    while cost(&matrix) > most_cost {
        let place = random.between(0, matrix.len() - 1);
        matrix[place] = matrix[place].saturating_sub(1);
    }
    matrix
}

/// The same entries in random places.
pub fn shuffled(random: &mut Random, mut matrix: Vec<u8>) -> Vec<u8> {
    for place in (1..matrix.len()).rev() {
        matrix.swap(place, random.between(0, place));
    }
    matrix
}

/// A random multiplicity other than 0.
pub fn multiplicity(random: &mut Random) -> u8 {
    random.between(1, GREATEST_MULTIPLICITY.into()) as u8
}
