//! Checks polynomials that are proposed for a tag, and lists its tickets by each.

use kv::{
    check_proposal, interpolate, list_of_proposal, multiplicities, Polynomial, Refusal, Sizes,
    LIMIT, SYMBOLS, WHOLE,
};

const SIZES: Sizes = Sizes { n: 6, k: 2 };
const LEVEL: usize = 1;
/// Each mark is clear, and the fifth is wrong.
const MARKS: [usize; SIZES.n] = [1, 1, 1, 1, 5, 1];
const DEGREE: usize = 2;
/// Of 1, x, y, x², xy and y²: the box has multiplied y + 1, which passes through the marks that
/// look like 1, by x + 3, which passes through the fifth, where x is 3.
const BOXED: [u8; 6] = [3, 1, 3, 0, 1, 0];

fn photographed() -> Result<Vec<u8>, Refusal> {
    let mut reliabilities = [0; SYMBOLS * SIZES.n];
    for (position, mark) in MARKS.into_iter().enumerate() {
        reliabilities[SYMBOLS * position + mark] = WHOLE;
    }
    multiplicities(SIZES.n, LEVEL, &reliabilities)
}

fn print_list(matrix: &[u8], proposed: &Polynomial) {
    let Polynomial {
        bound,
        coefficients,
    } = proposed;
    match list_of_proposal(SIZES, LIMIT, *bound, matrix, coefficients) {
        Err(refusal) => println!("refused {} at {}", refusal.number(), refusal.place()),
        Ok(listed) => {
            println!("listed {}", listed.rows.len());
            for row in listed.rows {
                let message = row.message;
                println!(
                    "score {} message {:x}{:x}",
                    row.score, message[0], message[1]
                );
            }
        }
    }
}

fn propose(whose: &str, matrix: &[u8], proposed: &Polynomial) -> Result<(), Refusal> {
    let is_yes = check_proposal(SIZES, proposed.bound, matrix, &proposed.coefficients)?;
    println!("{whose}: {}", if is_yes { "yes" } else { "no" });
    print_list(matrix, proposed);
    Ok(())
}

fn main() -> Result<(), Refusal> {
    let matrix = photographed()?;
    let own = interpolate(SIZES, LIMIT, &matrix)?;
    propose("the library's polynomial", &matrix, &own)?;
    let mut boxed = Polynomial {
        bound: DEGREE,
        coefficients: BOXED.to_vec(),
    };
    propose("the box's polynomial", &matrix, &boxed)?;
    boxed.coefficients[0] = 2;
    propose("one coefficient off", &matrix, &boxed)
}
