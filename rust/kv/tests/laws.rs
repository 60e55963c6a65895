//! The auditors' laws (docs/AUDIT.md), asked of the built library: of all messages of two symbols,
//! and of matrices that are added.

use kv::{encode, product, sum, Matrix, Refusal, Sizes, LIMIT, POSITIONS, SYMBOLS};

const SIZES: Sizes = Sizes { n: POSITIONS, k: 2 };
const ZERO: [u8; POSITIONS] = [0; POSITIONS];

fn symbols() -> impl Iterator<Item = u8> {
    0..SYMBOLS as u8
}

fn messages() -> Vec<[u8; 2]> {
    let beginning_with = |first| symbols().map(move |second| [first, second]);
    symbols().flat_map(beginning_with).collect()
}

fn added(words: [&[u8]; 2]) -> Result<Vec<u8>, Refusal> {
    let pairs = words[0].iter().zip(words[1]);
    pairs.map(|(&a, &b)| sum(a, b)).collect()
}

fn multiplied(symbol: u8, word: &[u8]) -> Result<Vec<u8>, Refusal> {
    word.iter().map(|&a| product(symbol, a)).collect()
}

fn agreeing(words: [&[u8]; 2]) -> usize {
    let pairs = words[0].iter().zip(words[1]);
    pairs.filter(|(a, b)| a == b).count()
}

#[test]
fn the_page_gives_right_examples() -> Result<(), Refusal> {
    let sizes = Sizes { n: 3, k: 2 };
    assert_eq!(encode(sizes, &[0, 1])?, [1, 2, 4]);
    assert_eq!(encode(sizes, &[1, 0])?, [1, 1, 1]);
    assert_eq!(encode(sizes, &added([&[0, 1], &[1, 0]])?)?, [0, 3, 5]);
    assert_eq!(encode(sizes, &multiplied(3, &[0, 1])?)?, [3, 6, 12]);
    assert_eq!(encode(sizes, &[0, 0])?, [0, 0, 0]);
    assert_eq!(agreeing([&[1, 2, 4], &[1, 1, 1]]), 1);
    let mut matrix = Matrix::fresh(2)?;
    for (entry, cost) in [(2, 3), (3, 6), (5, 15)] {
        matrix.set_entry(0, 0, entry)?;
        assert_eq!(matrix.cost, cost);
    }
    Ok(())
}

#[test]
fn sums_are_encoded_as_sums() -> Result<(), Refusal> {
    for f in messages() {
        for g in messages() {
            let words = [encode(SIZES, &f)?, encode(SIZES, &g)?];
            let encoded = encode(SIZES, &added([&f, &g])?)?;
            assert_eq!(encoded, added([&words[0], &words[1]])?, "{f:?} and {g:?}");
        }
    }
    Ok(())
}

#[test]
fn multiples_are_encoded_as_multiples() -> Result<(), Refusal> {
    for f in messages() {
        for c in symbols() {
            let encoded = encode(SIZES, &multiplied(c, &f)?)?;
            assert_eq!(
                encoded,
                multiplied(c, &encode(SIZES, &f)?)?,
                "{c} times {f:?}"
            );
        }
    }
    Ok(())
}

#[test]
fn what_is_added_to_itself_is_zero() -> Result<(), Refusal> {
    for f in messages() {
        let doubled = added([&f, &f])?;
        assert_eq!(doubled, [0, 0]);
        assert_eq!(encode(SIZES, &doubled)?, ZERO);
    }
    Ok(())
}

#[test]
fn different_messages_agree_in_at_most_one_position_and_some_do() -> Result<(), Refusal> {
    let mut greatest = 0;
    for f in messages() {
        for g in messages().into_iter().filter(|g| *g != f) {
            let agree = agreeing([&encode(SIZES, &f)?, &encode(SIZES, &g)?]);
            assert!(agree < SIZES.k, "{f:?} and {g:?} agree in {agree}");
            greatest = greatest.max(agree);
        }
    }
    assert_eq!(greatest, SIZES.k - 1);
    Ok(())
}

/// A matrix of the smallest numbers, which differ from place to place and from seed to seed.
fn scattered(n: usize, seed: usize) -> Result<Matrix, Refusal> {
    let entry = |place: usize| (place * (seed + 3) / (seed + 5) % 3) as u8;
    let bytes: Vec<u8> = (0..SYMBOLS * n).map(entry).collect();
    Matrix::of_bytes(n, &bytes)
}

#[test]
fn the_cost_of_a_sum_is_both_costs_and_the_products() -> Result<(), Refusal> {
    let mut crossed = 0;
    for n in 2..=POSITIONS {
        for seed in 0..20 {
            let (first, second) = (scattered(n, seed)?, scattered(n, seed + 1)?);
            let pairs = first.entries.iter().zip(&second.entries);
            let products: usize = pairs.map(|(&a, &b)| usize::from(a) * usize::from(b)).sum();
            let mut both = first.clone();
            both.add(&second)?;
            assert_eq!(both.cost, first.cost + second.cost + products);
            for (i, total) in both.totals.into_iter().enumerate() {
                assert_eq!(total, first.totals[i] + second.totals[i]);
            }
            crossed += products;
        }
    }
    assert_ne!(crossed, 0);
    Ok(())
}

/// The marks of a codeword, each of the level, and two of them wrong.
fn photograph(message: &[u8], level: u8, wrong: [usize; 2]) -> Result<Matrix, Refusal> {
    let mut matrix = Matrix::fresh(SIZES.n)?;
    for (position, mark) in encode(SIZES, message)?.into_iter().enumerate() {
        let seen = if wrong.contains(&position) {
            sum(mark, 1)?
        } else {
            mark
        };
        matrix.set_entry(position, seen.into(), level)?;
    }
    Ok(matrix)
}

#[test]
fn the_score_under_a_sum_is_the_sum_of_the_scores() -> Result<(), Refusal> {
    for message in messages() {
        let (first, second) = (
            photograph(&message, 1, [0, 7])?,
            photograph(&message, 2, [7, 14])?,
        );
        let mut both = first.clone();
        both.add(&second)?;
        let score = |matrix: &Matrix| -> Result<usize, Refusal> {
            let listed = matrix.list(SIZES.k, LIMIT)?;
            let row = listed.rows.iter().find(|row| row.message == message);
            Ok(row.expect("the message is listed").score)
        };
        assert_eq!((score(&first)?, score(&second)?), (13, 26));
        assert_eq!(score(&both)?, 13 + 26, "{message:?}");
    }
    Ok(())
}
