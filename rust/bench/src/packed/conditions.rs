//! The conditions of a matrix, a row each.

use super::field::{square, SYMBOLS};
use super::lanes::{add, masks, put, scaled, spreads, Spread, Words, ONES};
use super::monomials::{walk, Bound};
use super::points::{Points, ORDERS};
use super::rows::{part_mut, Row, MOST_WORDS};

/// For each order of derivative: 15 where it leaves the monomial.
type Left<const WORDS: usize> = [Words<WORDS>; ORDERS];

/// The monomials' exponents of x or of y.
struct Exponents<const WORDS: usize> {
    /// Their low four bits and those above, a lane for each monomial.
    spread: [Spread<WORDS>; 2],
    /// How many the greatest has.
    bits: usize,
}

impl<const WORDS: usize> Exponents<WORDS> {
    fn of(exponents: impl Iterator<Item = usize>, greatest: usize) -> Self {
        let mut packed = [[0; WORDS]; 2];
        for (at, exponent) in exponents.enumerate() {
            put(&mut packed[0], at, (exponent % SYMBOLS) as u8);
            put(&mut packed[1], at, (exponent / SYMBOLS) as u8);
        }
        Exponents {
            spread: packed.each_ref().map(spreads),
            bits: (usize::BITS - greatest.leading_zeros()) as usize,
        }
    }

    /// 15 in the lanes that have each bit.
    fn bits(&self) -> &[Words<WORDS>] {
        &self.spread.as_flattened()[..self.bits]
    }

    /// Each lane times the symbol to the lane's exponent.
    fn times_powers(&self, mut words: Words<WORDS>, symbol: u8) -> Words<WORDS> {
        let mut of_bit = usize::from(symbol);
        for lanes in self.bits() {
            let less_one = masks(of_bit ^ 1);
            let more = masked(&words, lanes).map(|word| scaled(word, &less_one));
            add(&mut words, &more);
            of_bit = square(of_bit);
        }
        words
    }

    /// Where the exponent has all bits of the order, so that their binomial is odd.
    fn left(&self) -> Left<WORDS> {
        self.left_of(|has_bit, is_of_order| has_bit | !is_of_order)
    }

    /// Where the exponent is the order: no other power is left at 0.
    fn left_at_zero(&self) -> Left<WORDS> {
        self.left_of(|has_bit, is_of_order| !(has_bit ^ is_of_order))
    }

    /// Where each bit of the exponent fits that of the order.
    fn left_of(&self, fit: impl Fn(u64, u64) -> u64) -> Left<WORDS> {
        std::array::from_fn(|order| {
            let bits = self.spread.as_flattened().iter().enumerate();
            bits.fold([u64::MAX; WORDS], |left, (bit, lanes)| {
                let is_of_order = (order as u64 >> bit & 1).wrapping_neg();
                masked(&left, &lanes.map(|has_bit| fit(has_bit, is_of_order)))
            })
        })
    }
}

fn masked<const WORDS: usize>(words: &Words<WORDS>, left: &Words<WORDS>) -> Words<WORDS> {
    std::array::from_fn(|word| words[word] & left[word])
}

fn row<const WORDS: usize>(words: Words<WORDS>) -> Row {
    let mut row = [0; MOST_WORDS];
    *part_mut(&mut row) = words;
    row
}

/// What the derivatives leave of the monomials at a point.
struct Leaving<const WORDS: usize> {
    of_x: Left<WORDS>,
    of_y: Left<WORDS>,
    of_y_at_zero: Left<WORDS>,
}

impl<const WORDS: usize> Leaving<WORDS> {
    /// The conditions of a point of multiplicity m, at which the monomials have these values.
    fn put_point(&self, values: &Words<WORDS>, y: u8, m: usize, rows: &mut Vec<Row>) {
        let of_y = if y == 0 {
            &self.of_y_at_zero
        } else {
            &self.of_y
        };
        for (t, left) in of_y[..m].iter().enumerate() {
            let values = masked(values, left);
            let of_x = self.of_x[..m - t].iter();
            rows.extend(of_x.map(|left| row(masked(&values, left))));
        }
    }
}

/// One row for each condition.
pub fn conditions<const WORDS: usize>(points: &Points, v: usize, bound: &Bound) -> Vec<Row> {
    let monomials = || walk(v).take(points.cost + 1);
    let of_x = Exponents::<WORDS>::of(monomials().map(|at| at.a), bound.degree);
    let of_y = Exponents::<WORDS>::of(monomials().map(|at| at.b), bound.height);
    let leaving = Leaving {
        of_x: of_x.left(),
        of_y: of_y.left(),
        of_y_at_zero: of_y.left_at_zero(),
    };
    let mut rows = Vec::with_capacity(points.cost);
    let (mut x, mut powers_of_x) = (0, [0; WORDS]);
    for point in points.listed() {
        if point.x != x {
            x = point.x;
            powers_of_x = of_x.times_powers([ONES; WORDS], x);
        }
        let values = of_y.times_powers(powers_of_x, point.y.max(1));
        leaving.put_point(&values, point.y, point.multiplicity.into(), &mut rows);
    }
    rows
}
