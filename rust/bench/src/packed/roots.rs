//! The root search of Roth and Ruckenstein. A message that it finds need not be a root, since the
//! list asks for its score only; every root is found.

use super::field::{power, product, SYMBOLS};
use super::lanes::{first_lane, lane, zero_lanes, BITS, LANES};
use super::monomials::{bound, walk, Bound};
use super::shift::shift;
use super::straight::go_straight_on;
use second::bound::GREATEST_LIMIT;
use second::list::MOST_ROWS;

/// The highest power of y is no more than a list has rows, for any cost up to the limit.
const HEIGHT: usize = MOST_ROWS + 1;
const MOST_SYMBOLS: usize = 15;
/// As many as the powers of x up to the greatest bound need.
const MOST_WORDS_OF_X: usize = bound(MOST_SYMBOLS - 1, GREATEST_LIMIT).degree / LANES + 1;

pub type Message = [u8; MOST_SYMBOLS];

/// For each power and factor: the factor times that power of each symbol.
static VALUES: [[u64; SYMBOLS]; HEIGHT] = values();

const fn values() -> [[u64; SYMBOLS]; HEIGHT] {
    let mut values = [[0; SYMBOLS]; HEIGHT];
    let mut at = 0;
    while at < HEIGHT * SYMBOLS * SYMBOLS {
        let (b, factor, y) = (at / SYMBOLS / SYMBOLS, at / SYMBOLS % SYMBOLS, at % SYMBOLS);
        let value = product(factor, power(y, b)) as u64;
        values[b][factor] |= value << (BITS * y);
        at += 1;
    }
    values
}

/// Row b has the powers of x that stand beside y^b, a lane for each.
#[derive(Clone, Copy)]
struct Polynomial<const WORDS: usize> {
    rows: [[u64; WORDS]; HEIGHT],
    height: usize,
}

/// The lanes, moved up by so many.
fn raised<const WORDS: usize>(row: &[u64; WORDS], lanes: usize) -> [u64; WORDS] {
    let (words, bits) = (lanes / LANES, BITS * (lanes % LANES));
    let word_at = |word: usize| if word < words { 0 } else { row[word - words] };
    std::array::from_fn(|word| {
        let below = if word == 0 { 0 } else { word_at(word - 1) };
        let wide = u128::from(word_at(word)) << u64::BITS | u128::from(below);
        (wide << bits >> u64::BITS) as u64
    })
}

/// The lanes, moved down by so many.
fn lowered<const WORDS: usize>(row: &[u64; WORDS], lanes: usize) -> [u64; WORDS] {
    let (words, bits) = (lanes / LANES, BITS * (lanes % LANES));
    let word_at = |word: usize| row.get(word + words).copied().unwrap_or(0);
    std::array::from_fn(|word| {
        let wide = u128::from(word_at(word + 1)) << u64::BITS | u128::from(word_at(word));
        (wide >> bits) as u64
    })
}

impl<const WORDS: usize> Polynomial<WORDS> {
    fn from_list(v: usize, bound: &Bound, coefficients: &[u8]) -> Self {
        let mut rows = [[0; WORDS]; HEIGHT];
        for (&coefficient, at) in coefficients[..bound.count].iter().zip(walk(v)) {
            rows[at.b][at.a / LANES] |= u64::from(coefficient) << (BITS * (at.a % LANES));
        }
        let height = bound.height + 1;
        Polynomial { rows, height }.freed()
    }

    fn rows(&self) -> &[[u64; WORDS]] {
        &self.rows[..self.height]
    }

    /// Divided by the highest power of x that divides it.
    fn freed(mut self) -> Self {
        let any = |word: usize| self.rows().iter().fold(0, |any, row| any | row[word]);
        let lanes = (0..WORDS).find_map(|word| Some(LANES * word + first_lane(any(word))?));
        match lanes {
            None | Some(0) => {}
            Some(lanes) => {
                for row in &mut self.rows[..self.height] {
                    *row = lowered(row, lanes);
                }
            }
        }
        self
    }

    /// With xy + symbol for y.
    fn substituted(mut self, symbol: usize) -> Self {
        shift(&mut self.rows[..self.height], symbol);
        for b in 1..self.height {
            self.rows[b] = raised(&self.rows[b], b);
        }
        self.freed()
    }

    /// The values for each symbol as y, and those of the derivative, where x is 0.
    fn at_zero(&self) -> (u64, u64) {
        let (mut values, mut derivative) = (0, 0);
        for (b, row) in self.rows().iter().enumerate() {
            let constant = lane(row[0], 0);
            values ^= VALUES[b][constant];
            if b % 2 == 1 {
                derivative ^= VALUES[b - 1][constant];
            }
        }
        (values, derivative)
    }
}

struct Search<'a, Take: FnMut(&[u8])> {
    k: usize,
    message: Message,
    take: &'a mut Take,
}

impl<Take: FnMut(&[u8])> Search<'_, Take> {
    fn go_on<const WORDS: usize>(&mut self, polynomial: &Polynomial<WORDS>, level: usize) {
        let (values, derivative) = polynomial.at_zero();
        let mut left = zero_lanes(values);
        while let Some(symbol) = first_lane(left) {
            left &= left - 1;
            self.message[level] = symbol as u8;
            if level + 1 == self.k {
                (self.take)(&self.message[..self.k]);
            } else if lane(derivative, symbol) != 0 {
                let mut rows = polynomial.rows.map(|row| [row[0]]);
                let message = &mut self.message[level..self.k];
                go_straight_on(&mut rows[..polynomial.height], message);
                (self.take)(&self.message[..self.k]);
            } else {
                self.go_on(&polynomial.substituted(symbol), level + 1);
            }
        }
    }
}

fn search<const WORDS: usize>(
    k: usize,
    bound: &Bound,
    coefficients: &[u8],
    take: &mut impl FnMut(&[u8]),
) {
    let polynomial = Polynomial::<WORDS>::from_list(k - 1, bound, coefficients);
    let message = [0; MOST_SYMBOLS];
    Search { k, message, take }.go_on(&polynomial, 0);
}

/// Hands on messages in order, every root among them.
pub fn roots(k: usize, bound: &Bound, coefficients: &[u8], mut take: impl FnMut(&[u8])) {
    match bound.degree / LANES {
        0 => search::<1>(k, bound, coefficients, &mut take),
        1 => search::<2>(k, bound, coefficients, &mut take),
        2 => search::<3>(k, bound, coefficients, &mut take),
        3 => search::<4>(k, bound, coefficients, &mut take),
        _ => search::<MOST_WORDS_OF_X>(k, bound, coefficients, &mut take),
    }
}
