//! Polynomials in x and y with roots that were planted.

use crate::sizes::with_entry;
use second::field::{plus, times, GREATEST_SYMBOL};
use second::roots::MOST_COEFFICIENTS;
use tags::Random;

/// (a, b) for each x^a y^b of weighted degree at most `degree`, in order.
pub fn monomials(v: usize, degree: usize) -> Vec<(usize, usize)> {
    let of_degree = |d: usize| (0..=d / v).map(move |b| (d - v * b, b));
    (0..=degree).flat_map(of_degree).collect()
}

pub fn greatest_degree(v: usize) -> usize {
    let too_great = (0..).find(|&degree| monomials(v, degree).len() > MOST_COEFFICIENTS);
    too_great.expect("each degree adds a monomial") - 1
}

/// The coefficient of x^a y^b at [b][a].
pub type Grid = Vec<Vec<u8>>;

/// The polynomial of the first coefficients in order, with place for those up to the degree.
pub fn grid(v: usize, degree: usize, coefficients: &[u8]) -> Grid {
    let mut grid = vec![vec![0; degree + 1]; degree / v + 1];
    for ((a, b), &coefficient) in monomials(v, degree).into_iter().zip(coefficients) {
        grid[b][a] = coefficient;
    }
    grid
}

/// The product with y plus the polynomial f in x, where there is place for it.
pub fn times_y_plus(f: &[u8], grid: &Grid) -> Grid {
    let mut total = vec![vec![0; grid[0].len()]; grid.len()];
    let mut add = |a: usize, b: usize, coefficient: u8| {
        if coefficient != 0 {
            total[b][a] = plus(total[b][a], coefficient);
        }
    };
    for (b, in_x) in grid.iter().enumerate() {
        for (a, &coefficient) in in_x.iter().enumerate() {
            add(a, b + 1, coefficient);
            for (j, &symbol) in f.iter().enumerate() {
                add(a + j, b, times(coefficient, symbol));
            }
        }
    }
    total
}

/// The product with x plus a symbol, where there is place for it.
pub fn times_x_plus(symbol: u8, grid: &Grid) -> Grid {
    let grown = |in_x: &Vec<u8>| {
        let shifted = [0].iter().chain(in_x);
        let pairs = shifted.zip(in_x);
        pairs.map(|(&a, &b)| plus(a, times(b, symbol))).collect()
    };
    grid.iter().map(grown).collect()
}

pub fn in_order(v: usize, degree: usize, grid: &Grid) -> Vec<u8> {
    let monomials = monomials(v, degree).into_iter();
    monomials.map(|(a, b)| grid[b][a]).collect()
}

/// A polynomial other than 0: random, few powers, a power of x, or without y.
fn cofactor(random: &mut Random, v: usize, degree: usize) -> Vec<u8> {
    let monomials = monomials(v, degree);
    let symbol = random.between(1, GREATEST_SYMBOL.into()) as u8;
    let place = random.between(0, monomials.len() - 1);
    let zeros = vec![0; monomials.len()];
    let full = random.bytes(monomials.len(), GREATEST_SYMBOL);
    let only = |kept: fn(usize) -> bool| -> Vec<u8> {
        let cell = |(&(_, b), &c): (&(usize, usize), &u8)| if kept(b) { c } else { 0 };
        monomials.iter().zip(&full).map(cell).collect()
    };
    let (base, place) = match random.between(0, 4) {
        0 => (zeros, place),
        1 => (zeros, monomials.iter().rposition(|m| m.1 == 0).unwrap_or(0)),
        2 => (only(|b| b == 0), 0),
        3 => (only(|b| b <= 1), place),
        _ => (full, place),
    };
    with_entry(&base, place, symbol)
}

/// A message: random, of few symbols, or 0.
pub fn message(random: &mut Random, k: usize) -> Vec<u8> {
    let mut message = random.bytes(k, GREATEST_SYMBOL);
    let kept = match random.between(0, 3) {
        0 => random.between(0, k),
        _ => k,
    };
    message[kept..].fill(0);
    message
}

/// A polynomial with so many factors y plus f, or as many as the degree holds: f is a message,
/// one that was taken already, or of degree k.
pub fn planted(random: &mut Random, degree: usize, k: usize, most: usize) -> Vec<u8> {
    let v = k - 1;
    let mut left = degree;
    let mut factors: Vec<Vec<u8>> = Vec::new();
    for _ in 0..most {
        let mut f = message(random, k);
        let kind = random.between(0, 5);
        if kind == 0 && left >= k {
            f.push(random.between(1, GREATEST_SYMBOL.into()) as u8);
        } else if kind == 1 && !factors.is_empty() {
            f = factors[random.between(0, factors.len() - 1)].clone();
        }
        if f.len() - 1 > left {
            break;
        }
        left -= f.len() - 1;
        factors.push(f);
    }
    let cofactor = grid(v, degree, &cofactor(random, v, left));
    let product = factors
        .iter()
        .fold(cofactor, |product, f| times_y_plus(f, &product));
    in_order(v, degree, &product)
}
