//! Polynomials that are products of lines, which pass through known points a known number of times.

use crate::planted::{grid, in_order, message, times_x_plus, times_y_plus};
use second::bound::GREATEST_MULTIPLICITY;
use second::code::{value_at, x_of};
use second::field::SYMBOLS;
use tags::Random;

/// x plus the x of each position, so many times, and y plus the polynomial of each message.
pub struct Lines {
    in_x: Vec<usize>,
    in_y: Vec<Vec<u8>>,
}

impl Lines {
    /// So many lines as pass through every point of a matrix that is lent as bytes.
    pub fn through(matrix: &[u8]) -> Self {
        let greatest = |column: &[u8]| column.iter().copied().max().unwrap_or(0).into();
        Lines {
            in_x: matrix.chunks(SYMBOLS).map(greatest).collect(),
            in_y: Vec::new(),
        }
    }

    /// A random product of n positions, of at most the given weighted degree.
    pub fn random(random: &mut Random, n: usize, k: usize, degree: usize) -> Self {
        let mut lines = Lines {
            in_x: vec![0; n],
            in_y: Vec::new(),
        };
        for _ in 0..random.between(0, degree / (k - 1)) {
            let again = !lines.in_y.is_empty() && random.happens(2);
            let line = match again {
                true => lines.in_y[random.between(0, lines.in_y.len() - 1)].clone(),
                false => message(random, k),
            };
            lines.in_y.push(line);
        }
        let left = degree - lines.degree(k - 1);
        for _ in 0..random.between(0, left) {
            lines.in_x[random.between(0, n - 1)] += 1;
        }
        lines
    }

    /// The same without one of the lines in x, if there is any.
    pub fn without_one(&self) -> Option<Self> {
        let position = self.in_x.iter().position(|&times| times > 0)?;
        let mut in_x = self.in_x.clone();
        in_x[position] -= 1;
        Some(Lines {
            in_x,
            in_y: self.in_y.clone(),
        })
    }

    pub fn degree(&self, v: usize) -> usize {
        self.in_x.iter().sum::<usize>() + v * self.in_y.len()
    }

    /// In order, where the product's own degree is no greater.
    pub fn coefficients(&self, v: usize, degree: usize) -> Option<Vec<u8>> {
        if self.degree(v) > degree {
            return None;
        }
        let mut product = grid(v, degree, &[1]);
        for f in &self.in_y {
            product = times_y_plus(f, &product);
        }
        let positions = self.in_x.iter().enumerate();
        for position in positions.flat_map(|(i, &times)| vec![i; times]) {
            product = times_x_plus(x_of(position), &product);
        }
        Some(in_order(v, degree, &product))
    }

    /// How often it passes through the point of a position and a symbol: as often as its lines do.
    fn passes(&self, position: usize, symbol: usize) -> usize {
        let at = |f: &&Vec<u8>| usize::from(value_at(f, x_of(position))) == symbol;
        self.in_x[position] + self.in_y.iter().filter(at).count()
    }

    /// The greatest matrix through which it passes.
    pub fn matrix(&self) -> Vec<u8> {
        let entry = |place: usize| {
            let passes = self.passes(place / SYMBOLS, place % SYMBOLS);
            passes.min(GREATEST_MULTIPLICITY.into()) as u8
        };
        (0..SYMBOLS * self.in_x.len()).map(entry).collect()
    }
}
