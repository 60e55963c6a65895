//! Reliabilities as a camera gives them.

use crate::random::Random;
use crate::words::some_positions;
use second::field::SYMBOLS;
use second::weights::WHOLE;

/// The weights of a word whose symbols keep at least the given share, the rest going to others.
pub fn soft_weights(random: &mut Random, word: &[u8], least_share: usize) -> Vec<u16> {
    let whole = WHOLE as usize;
    let mut weights = vec![0; SYMBOLS * word.len()];
    for (position, &symbol) in word.iter().enumerate() {
        let column = &mut weights[SYMBOLS * position..][..SYMBOLS];
        let kept = random.between(least_share.min(whole), whole);
        column[usize::from(symbol)] += kept as u16;
        let mut left = whole - kept;
        while left > 0 {
            let given = random.between(1, left);
            column[random.between(0, SYMBOLS - 1)] += given as u16;
            left -= given;
        }
    }
    weights
}

/// The weights as a camera gives them that rounds each down: some of them lose one.
pub fn rounded_down(random: &mut Random, weights: &[u16]) -> Vec<u16> {
    let rounded = |&weight: &u16| weight.saturating_sub(random.between(0, 1) as u16);
    weights.iter().map(rounded).collect()
}

/// The weights with so many of the marks erased.
pub fn with_erased_marks(random: &mut Random, weights: &[u16], erased: usize) -> Vec<u16> {
    let mut changed = weights.to_vec();
    for position in some_positions(random, weights.len() / SYMBOLS, erased) {
        changed[SYMBOLS * position..][..SYMBOLS].fill(0);
    }
    changed
}

/// The weights of words that share each position evenly, the last one taking what is left over.
pub fn shared_weights(words: &[Vec<u8>]) -> Vec<u16> {
    let mut weights = vec![0; SYMBOLS * words[0].len()];
    let mut left = WHOLE as u16;
    for (index, word) in words.iter().enumerate() {
        let share = match words.len() - index {
            1 => left,
            _ => WHOLE as u16 / words.len() as u16,
        };
        left -= share;
        for (position, &symbol) in word.iter().enumerate() {
            weights[SYMBOLS * position + usize::from(symbol)] += share;
        }
    }
    weights
}
