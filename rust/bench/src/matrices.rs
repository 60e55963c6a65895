//! Multiplicity matrices of worn tags and of hard words.

use second::field::{GREATEST_SYMBOL, SYMBOLS};
use second::weights::WHOLE;
use tags::Random;
use tags::{hard_word, matrix_of, random_codeword, with_wrong_marks};

const MOST_OTHERS: usize = 3;

/// One mark's weights: half of the marks are clear, of the others a part goes to the right symbol,
/// where that is another, and to some more.
fn mark(random: &mut Random, seen: u8, right: u8) -> [u16; SYMBOLS] {
    let mut column = [0; SYMBOLS];
    let mut left = WHOLE as usize;
    let mut give = |symbol: u8, weight: usize| {
        column[usize::from(symbol)] += weight as u16;
        left -= weight;
        left
    };
    if random.between(0, 1) == 1 {
        let half = WHOLE as usize / 2;
        let mut others = give(seen, random.between(half, half * 2));
        others = give(right, random.between(0, others));
        for _ in 0..random.between(0, MOST_OTHERS) {
            let symbol = random.between(0, GREATEST_SYMBOL.into()) as u8;
            others = give(symbol, random.between(0, others));
        }
    }
    column[usize::from(seen)] += left as u16;
    column
}

/// The weights of a random codeword's tag with so many wrong marks.
pub fn worn_weights(random: &mut Random, n: usize, k: usize, wrong: usize) -> Vec<u16> {
    let right = random_codeword(random, n, k);
    let seen = with_wrong_marks(random, &right, wrong);
    let marks = seen.iter().zip(&right);
    marks
        .flat_map(|(&seen, &right)| mark(random, seen, right))
        .collect()
}

/// The matrix of such a tag.
pub fn worn_tag(random: &mut Random, n: usize, k: usize, level: usize, wrong: usize) -> Vec<u8> {
    matrix_of(&worn_weights(random, n, k, wrong), level)
}

/// The matrix with the level at each symbol of a codeword with so many wrong marks.
pub fn wrong_word(random: &mut Random, n: usize, k: usize, level: usize, wrong: usize) -> Vec<u8> {
    let right = random_codeword(random, n, k);
    hard_word(&with_wrong_marks(random, &right, wrong), level as u8)
}
