//! Elimination below one pivot at a time, up to the first column that depends on those before it.

use super::field::{quotient, SYMBOLS};
use super::lanes::{add, lane, masks, scaled, LANES};
use super::rows::{for_words, part, part_mut, put_multiples, Multiples, Row};

/// Puts the row found first, divided by its entry at this place, and answers it. The words before
/// these are 0 in both rows.
fn exchange<const WORDS: usize>(rows: &mut [Row], found: usize, place: usize) -> [u64; WORDS] {
    let pivot = *part::<WORDS>(&rows[found]);
    let inverse = masks(quotient(1, lane(pivot[0], place)));
    let pivot = pivot.map(|word| scaled(word, &inverse));
    *part_mut(&mut rows[found]) = *part::<WORDS>(&rows[0]);
    *part_mut(&mut rows[0]) = pivot;
    pivot
}

/// Clears the rows' entries at this place. Two rows whose entries are 0 are passed over together:
/// asked of each row alone, the processor foresees the answer less often.
fn clear<const WORDS: usize>(rows: &mut [Row], place: usize, multiples: &Multiples<WORDS>) {
    let entry = |row: &Row| lane(part::<WORDS>(row)[0], place);
    let clear_row = |row: &mut Row| {
        let multiple = &multiples[entry(row)];
        add(part_mut(row), multiple);
    };
    let (pairs, last) = rows.as_chunks_mut();
    for [first, second] in pairs {
        if entry(first) | entry(second) != 0 {
            clear_row(first);
            clear_row(second);
        }
    }
    last.iter_mut().for_each(clear_row);
}

/// Takes the pivots of the columns of one word. Answers the first column that has none, if any.
fn reduce<const WORDS: usize>(rows: &mut [Row]) -> Option<usize> {
    let mut multiples = [[0; WORDS]; SYMBOLS];
    for place in 0..LANES {
        let left = &mut rows[place..];
        let is_pivot = |row: &Row| lane(part::<WORDS>(row)[0], place) != 0;
        let Some(found) = left.iter().position(is_pivot) else {
            return Some(place);
        };
        let pivot = exchange(left, found, place);
        put_multiples(&pivot, &mut multiples);
        // The rows before have 0 there.
        clear(&mut left[found + 1..], place, &multiples);
    }
    None
}

/// Reduces the rows until a column depends on those before it, and answers that column.
pub fn first_dependent(rows: &mut [Row], words: usize) -> usize {
    let mut pivots = 0;
    loop {
        let left = &mut rows[pivots..];
        match for_words!(words - pivots / LANES, reduce(left)) {
            Some(place) => return pivots + place,
            None => pivots += LANES,
        }
    }
}
