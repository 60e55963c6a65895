//! Symbols and their arithmetic: polynomials in α over bits, modulo x⁴ + x + 1.

use crate::refusal::{symbol_above, unless_refused, Refusal};
use crate::Answer;
use std::sync::LazyLock;

pub const SYMBOLS: usize = 16;
pub const GREATEST_SYMBOL: u8 = 15;
pub const ALPHA: u8 = 2;

const SYMBOL_COEFFICIENTS: usize = 4;
const PRODUCT_COEFFICIENTS: usize = 2 * SYMBOL_COEFFICIENTS - 1;

/// Coefficients of 1, α, α² and so on, each 0 or 1.
type Coefficients = [u8; PRODUCT_COEFFICIENTS];

fn coefficients(symbol: u8) -> Coefficients {
    std::array::from_fn(|power| symbol >> power & 1)
}

fn symbol(coefficients: Coefficients) -> u8 {
    (0..SYMBOL_COEFFICIENTS)
        .map(|power| coefficients[power] << power)
        .sum()
}

fn add(total: &mut Coefficients, power: usize, bit: u8) {
    total[power] = (total[power] + bit) % 2;
}

/// The sum, coefficient by coefficient.
fn sum_by_rule(a: u8, b: u8) -> u8 {
    let mut total = coefficients(a);
    for (power, bit) in coefficients(b).into_iter().enumerate() {
        add(&mut total, power, bit);
    }
    symbol(total)
}

/// The product of the polynomials, reduced.
fn product_by_rule(a: u8, b: u8) -> u8 {
    let (a, b) = (coefficients(a), coefficients(b));
    let mut total = [0; PRODUCT_COEFFICIENTS];
    for i in 0..SYMBOL_COEFFICIENTS {
        for j in 0..SYMBOL_COEFFICIENTS {
            add(&mut total, i + j, a[i] * b[j]);
        }
    }
    symbol(reduced(total))
}

/// α⁴ = α + 1, applied from the highest power down.
fn reduced(mut total: Coefficients) -> Coefficients {
    for power in (SYMBOL_COEFFICIENTS..PRODUCT_COEFFICIENTS).rev() {
        let bit = total[power];
        total[power] = 0;
        add(&mut total, power - SYMBOL_COEFFICIENTS + 1, bit);
        add(&mut total, power - SYMBOL_COEFFICIENTS, bit);
    }
    total
}

type Table = [[u8; SYMBOLS]; SYMBOLS];

fn table(rule: fn(u8, u8) -> u8) -> Table {
    std::array::from_fn(|a| std::array::from_fn(|b| rule(a as u8, b as u8)))
}

/// The symbol whose product with b is a; 0 where b is 0.
fn quotient_by_search(a: u8, b: u8) -> u8 {
    let quotient = (0..=GREATEST_SYMBOL).find(|&c| product_by_rule(b, c) == a);
    quotient.unwrap_or(0)
}

/// What the rules give, worked out once.
static SUMS: LazyLock<Table> = LazyLock::new(|| table(sum_by_rule));
static PRODUCTS: LazyLock<Table> = LazyLock::new(|| table(product_by_rule));
static QUOTIENTS: LazyLock<Table> = LazyLock::new(|| table(quotient_by_search));

pub fn plus(a: u8, b: u8) -> u8 {
    SUMS[usize::from(a)][usize::from(b)]
}

pub fn times(a: u8, b: u8) -> u8 {
    PRODUCTS[usize::from(a)][usize::from(b)]
}

/// The symbol whose product with b, which is not 0, is a.
pub fn over(a: u8, b: u8) -> u8 {
    assert_ne!(b, 0);
    QUOTIENTS[usize::from(a)][usize::from(b)]
}

pub fn power(base: u8, exponent: usize) -> u8 {
    (0..exponent).fold(1, |product, _| times(product, base))
}

fn value(symbol: u8) -> Answer {
    Answer {
        value: symbol.into(),
        ..Answer::default()
    }
}

pub fn sum(a: u8, b: u8) -> Answer {
    unless_refused(&[symbol_above(GREATEST_SYMBOL, &[a, b])], || {
        value(plus(a, b))
    })
}

pub fn product(a: u8, b: u8) -> Answer {
    unless_refused(&[symbol_above(GREATEST_SYMBOL, &[a, b])], || {
        value(times(a, b))
    })
}

pub fn inverse(a: u8) -> Answer {
    let tests = [
        symbol_above(GREATEST_SYMBOL, &[a]),
        (a == 0).then_some(Refusal::Zero),
    ];
    unless_refused(&tests, || value(over(1, a)))
}
