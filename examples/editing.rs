//! Corrects a mark of a tag by hand, and lists its tickets before and after.

use kv::{multiplicities, Matrix, Refusal, LIMIT, SYMBOLS, WHOLE};

const N: usize = 6;
const K: usize = 2;
const LEVEL: usize = 1;
const MARKS: [usize; N] = [1, 1, 1, 2, 5, 7];

/// What the camera gives, turned into a record.
fn photographed() -> Result<Matrix, Refusal> {
    let mut reliabilities = [0; SYMBOLS * N];
    for (position, mark) in MARKS.into_iter().enumerate() {
        reliabilities[SYMBOLS * position + mark] = WHOLE;
    }
    Matrix::of_bytes(N, &multiplicities(N, LEVEL, &reliabilities)?)
}

/// A person has read the mark: what the camera saw there goes, and the right symbol counts more.
fn correct(matrix: &mut Matrix, position: usize, mark: usize) -> Result<(), Refusal> {
    matrix.clear_column(position)?;
    matrix.set_entry(position, mark, 2)
}

fn print_list(matrix: &Matrix) -> Result<(), Refusal> {
    let listed = matrix.list(K, LIMIT)?;
    println!("cost {}, listed {}", matrix.cost, listed.rows.len());
    for row in listed.rows {
        println!(
            "score {} message {:x}{:x}",
            row.score, row.message[0], row.message[1]
        );
    }
    Ok(())
}

fn main() -> Result<(), Refusal> {
    let mut matrix = photographed()?;
    print_list(&matrix)?;
    correct(&mut matrix, 3, 1)?;
    print_list(&matrix)
}
