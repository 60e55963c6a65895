//! Elimination below the pivots, up to the first column that depends on those before it, and what
//! solves the triangle then.

use super::field::{inverse, product};
use super::rows::{entry, multiples, scaled, sum, Row, BLOCK};
use second::bound::GREATEST_LIMIT;

/// The rows below a pivot whose entry in its column is not 0, and those entries.
struct Factors {
    listed: [(u8, u8); GREATEST_LIMIT],
    count: usize,
}

fn factors(rows: &[Row], column: usize) -> Factors {
    let mut listed = [(0, 0); GREATEST_LIMIT];
    let mut count = 0;
    for place in column + 1..rows.len() {
        let factor = entry(&rows[place], column);
        listed[count] = (place as u8, factor);
        count += usize::from(factor != 0);
    }
    Factors { listed, count }
}

/// Puts the row at `found` into its place, with 1 in the column.
fn exchange(rows: &mut [Row], column: usize, found: usize, blocks: usize) {
    let factor = inverse(entry(&rows[found], column));
    for block in column / BLOCK..blocks {
        let first = scaled(&rows[found][block], factor);
        rows[found][block] = rows[column][block];
        rows[column][block] = first;
    }
}

/// Clears the column below its pivot, block after block.
fn clear(rows: &mut [Row], column: usize, blocks: usize) {
    let factors = factors(rows, column);
    for block in column / BLOCK..blocks {
        let multiples = multiples(&rows[column][block]);
        for &(place, factor) in &factors.listed[..factors.count] {
            let part = &mut rows[usize::from(place)][block];
            *part = sum(part, &multiples[usize::from(factor)]);
        }
    }
}

/// Reduces the rows until a column depends on those before it, and answers that column.
pub fn first_dependent(rows: &mut [Row], blocks: usize) -> usize {
    let mut column = 0;
    while let Some(below) = rows[column..]
        .iter()
        .position(|row| entry(row, column) != 0)
    {
        exchange(rows, column, column + below, blocks);
        clear(rows, column, blocks);
        column += 1;
    }
    column
}

/// The coefficients before the dependent column's, from the last to the first.
pub fn solve(rows: &[Row], dependent: usize, out: &mut [u8]) {
    for place in (0..dependent).rev() {
        let row = rows[place].as_flattened();
        let behind = row[..dependent].iter().zip(&*out).skip(place + 1);
        let of_those = behind.map(|(&factor, &found)| product(factor, found));
        out[place] = of_those.fold(row[dependent], |sum, term| sum ^ term);
    }
}
