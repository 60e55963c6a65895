//! The root search of Roth and Ruckenstein.

use super::field::{product, SYMBOLS};
use super::monomials::walk;

/// D+1 times D/v+1 is no more for any D and v with N(D) up to 256.
const CELLS: usize = 512;
const MOST_SYMBOLS: usize = 15;

/// The coefficient of x^a y^b is at width * b + a.
#[derive(Clone, Copy)]
struct Polynomial {
    cells: [u8; CELLS],
    width: usize,
    height: usize,
}

impl Polynomial {
    fn from_list(v: usize, degree: usize, coefficients: &[u8]) -> Self {
        let (width, height) = (degree + 1, degree / v + 1);
        let mut cells = [0; CELLS];
        for (&coefficient, (a, b)) in coefficients.iter().zip(walk(v)) {
            cells[width * b + a] = coefficient;
        }
        Polynomial {
            cells,
            width,
            height,
        }
    }

    fn constants(&self) -> impl DoubleEndedIterator<Item = u8> + '_ {
        (0..self.height).map(|b| self.cells[self.width * b])
    }

    /// Divided by the highest power of x that divides it.
    fn stripped(mut self) -> Self {
        let mut left = self.width;
        while left > 0 && self.constants().all(|cell| cell == 0) {
            self.cells.copy_within(1..self.width * self.height, 0);
            self.cells[self.width * self.height - 1] = 0;
            left -= 1;
        }
        self
    }

    fn at_zero(&self, symbol: u8) -> u8 {
        let from_the_top = self.constants().rev();
        from_the_top.fold(0, |value, cell| product(value, symbol) ^ cell)
    }

    /// Adds the factor times the coefficients of y^from to those of y^to, a lower power.
    fn add_multiple(&mut self, to: usize, from: usize, factor: u8) {
        let (low, high) = self.cells.split_at_mut(self.width * from);
        let cells = &mut low[self.width * to..][..self.width];
        for (cell, &above) in cells.iter_mut().zip(&*high) {
            *cell ^= product(factor, above);
        }
    }

    /// With y + symbol for y: a fold for each bit of a power.
    fn shifted(mut self, symbol: u8) -> Self {
        let (mut bit, mut factor) = (1, symbol);
        while bit < self.height {
            for b in (0..self.height - bit).filter(|b| b & bit == 0) {
                self.add_multiple(b, b + bit, factor);
            }
            factor = product(factor, factor);
            bit *= 2;
        }
        self
    }

    /// With xy for y.
    fn spread(self) -> Self {
        let mut spread = [0; CELLS];
        for b in 0..self.height.min(self.width) {
            let (from, kept) = (self.width * b, self.width - b);
            spread[from + b..from + self.width].copy_from_slice(&self.cells[from..from + kept]);
        }
        Polynomial {
            cells: spread,
            ..self
        }
    }
}

struct Search<'a> {
    k: usize,
    prefix: [u8; MOST_SYMBOLS],
    out: &'a mut [u8],
    count: usize,
}

impl Search<'_> {
    fn go_on(&mut self, polynomial: Polynomial, level: usize) {
        if level == self.k {
            if polynomial.cells[..polynomial.width].iter().all(|&c| c == 0) {
                self.out[self.k * self.count..][..self.k].copy_from_slice(&self.prefix[..self.k]);
                self.count += 1;
            }
            return;
        }
        let stripped = polynomial.stripped();
        for symbol in 0..SYMBOLS as u8 {
            if stripped.at_zero(symbol) == 0 {
                self.prefix[level] = symbol;
                self.go_on(stripped.shifted(symbol).spread(), level + 1);
            }
        }
    }
}

/// Writes the roots in order, and answers how many they are.
pub fn roots(degree: usize, k: usize, coefficients: &[u8], out: &mut [u8]) -> usize {
    let polynomial = Polynomial::from_list(k - 1, degree, coefficients);
    let mut search = Search {
        k,
        prefix: [0; MOST_SYMBOLS],
        out,
        count: 0,
    };
    search.go_on(polynomial, 0);
    search.count
}
