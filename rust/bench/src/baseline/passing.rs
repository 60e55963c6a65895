//! Whether a polynomial passes through every point of a matrix. At each position what stands at
//! each power of y is derived by x once, for all symbols.

use super::field::{point, product, SYMBOLS};
use super::monomials::walk;
use second::roots::MOST_COEFFICIENTS;
use second::weights::GREATEST_LEVEL;

/// Derivatives at a symbol, by order.
type Derived = [u8; GREATEST_LEVEL];

/// Those of each power, or of what stands at each power of y.
type Rows = [Derived; MOST_COEFFICIENTS];

const ZEROS: Rows = [[0; GREATEST_LEVEL]; MOST_COEFFICIENTS];

/// Of the derivatives of a power those of the next: times the symbol, and the one of the order
/// before.
fn moved(row: &Derived, symbol: u8) -> Derived {
    std::array::from_fn(|s| {
        let before = if s > 0 { row[s - 1] } else { 0 };
        product(symbol, row[s]) ^ before
    })
}

fn powers(symbol: u8, count: usize) -> Rows {
    let mut rows = ZEROS;
    rows[0][0] = 1;
    for e in 1..count {
        rows[e] = moved(&rows[e - 1], symbol);
    }
    rows
}

/// What stands at each power of y, derived by x.
fn parts(v: usize, coefficients: &[u8], powers_of_x: &Rows) -> Rows {
    let mut rows = ZEROS;
    for (&c, (a, b)) in coefficients.iter().zip(walk(v)) {
        for (cell, &derived) in rows[b].iter_mut().zip(&powers_of_x[a]) {
            *cell ^= product(c, derived);
        }
    }
    rows
}

fn passes_at(parts: &[Derived], powers_of_y: &Rows, m: usize) -> bool {
    let derivative = |(s, t): (usize, usize)| {
        let pairs = parts.iter().zip(powers_of_y);
        let terms = pairs.map(|(part, power)| product(part[s], power[t]));
        terms.fold(0, |sum, term| sum ^ term)
    };
    let mut orders = (0..m).flat_map(|s| (0..m - s).map(move |t| (s, t)));
    orders.all(|order| derivative(order) == 0)
}

pub fn passes(k: usize, degree: usize, matrix: &[u8], coefficients: &[u8]) -> bool {
    let (v, height) = (k - 1, degree / (k - 1) + 1);
    let at_symbols: [Rows; SYMBOLS] = std::array::from_fn(|b| powers(b as u8, height));
    let column_passes = |(position, column): (usize, &[u8])| {
        let powers_of_x = powers(point(position), degree + 1);
        let parts = parts(v, coefficients, &powers_of_x);
        let mut symbols = column.iter().zip(&at_symbols);
        symbols.all(|(&m, powers_of_y)| passes_at(&parts[..height], powers_of_y, m.into()))
    };
    let is_zero = coefficients.iter().all(|&c| c == 0);
    !is_zero && matrix.chunks(SYMBOLS).enumerate().all(column_passes)
}
