//! Matrices with long lists, for messages of two symbols.

use crate::matrices::hard_word;
use crate::random::Random;
use crate::words::random_codeword;
use second::code::MOST_POSITIONS;
use second::field::{plus, times, SYMBOLS};

const K: usize = 2;

/// The words of the messages (a², a), with the same codeword added to each. Those of a and c agree
/// at x = a + c alone, so that each position has eight symbols, and each of these two words.
fn paired_words(added: &[u8]) -> Vec<Vec<u8>> {
    let word = |a: u8| {
        let mut word = vec![0; MOST_POSITIONS];
        second::code::encode(MOST_POSITIONS, K, &[times(a, a), a], &mut word);
        word.iter().zip(added).map(|(&y, &z)| plus(y, z)).collect()
    };
    (0..SYMBOLS as u8).map(word).collect()
}

/// A matrix that gives sixteen paired words and one beside them the same score: 1 at each symbol
/// that one of them has, and 2 in so many of the seven positions where the one beside shares a
/// symbol with the others.
pub fn paired(random: &mut Random, raised: usize) -> Vec<u8> {
    let added = random_codeword(random, MOST_POSITIONS, K);
    let beside: Vec<u8> = added.iter().map(|&symbol| plus(symbol, 1)).collect();
    let mut matrix = vec![0; SYMBOLS * MOST_POSITIONS];
    for word in paired_words(&added) {
        for (entry, one) in matrix.iter_mut().zip(hard_word(&word, 1)) {
            *entry |= one;
        }
    }
    let mut left = raised;
    for (column, &symbol) in matrix.chunks_mut(SYMBOLS).zip(&beside) {
        if column[usize::from(symbol)] == 0 {
            column[usize::from(symbol)] = 1;
        } else if left > 0 {
            left -= 1;
            column.iter_mut().for_each(|entry| *entry *= 2);
        }
    }
    matrix
}
