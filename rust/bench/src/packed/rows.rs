//! Rows of packed words: a row is a condition, a lane of it a monomial.

use super::field::SYMBOLS;
use super::lanes::{multiples, LANES};
use second::bound::GREATEST_LIMIT;

/// As many as the greatest cost needs.
pub const MOST_WORDS: usize = GREATEST_LIMIT / LANES + 1;

/// The words in use are the last ones, and of these the words from the pivot's on are changed.
pub type Row = [u64; MOST_WORDS];

/// Entry c is c times the words.
pub type Multiples<const WORDS: usize> = [[u64; WORDS]; SYMBOLS];

#[inline]
pub fn part<const WORDS: usize>(row: &Row) -> &[u64; WORDS] {
    row.last_chunk().expect("a row is long enough")
}

#[inline]
pub fn part_mut<const WORDS: usize>(row: &mut Row) -> &mut [u64; WORDS] {
    row.last_chunk_mut().expect("a row is long enough")
}

#[inline(always)]
pub fn put_multiples<const WORDS: usize>(words: &[u64; WORDS], table: &mut Multiples<WORDS>) {
    for word in 0..WORDS {
        let multiples = multiples(words[word]);
        for (entry, multiple) in table.iter_mut().zip(multiples) {
            entry[word] = multiple;
        }
    }
}

/// Calls a function that is made for each number of words.
macro_rules! for_words {
    ($words:expr, $function:ident $arguments:tt) => {
        match $words {
            1 => $function::<1> $arguments,
            2 => $function::<2> $arguments,
            3 => $function::<3> $arguments,
            4 => $function::<4> $arguments,
            5 => $function::<5> $arguments,
            6 => $function::<6> $arguments,
            7 => $function::<7> $arguments,
            8 => $function::<8> $arguments,
            9 => $function::<9> $arguments,
            10 => $function::<10> $arguments,
            11 => $function::<11> $arguments,
            12 => $function::<12> $arguments,
            13 => $function::<13> $arguments,
            14 => $function::<14> $arguments,
            _ => $function::<{ $crate::packed::rows::MOST_WORDS }> $arguments,
        }
    };
}

pub(crate) use for_words;
