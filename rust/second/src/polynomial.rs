//! Polynomials in x and in x and y, and the order of monomials.

use crate::field::{plus, times};

/// The coefficients of 1, x, x² and so on.
pub type InX = Vec<u8>;

/// x^a y^b as (a, b).
pub type Monomial = (usize, usize);

/// What monomials are ordered by: the weighted degree, then the power of y.
pub type Rank = (usize, usize);

pub fn rank(v: usize, (a, b): Monomial) -> Rank {
    (a + v * b, b)
}

/// The monomials of weighted degree at most d, in their order.
pub fn monomials_in_order(v: usize, d: usize) -> Vec<Monomial> {
    let powers_of_x = |b| (0..=d - v * b).map(move |a| (a, b));
    let mut monomials: Vec<Monomial> = (0..=d / v).flat_map(powers_of_x).collect();
    monomials.sort_by_key(|&monomial| rank(v, monomial));
    monomials
}

/// Whether the binomial of n over k, counted modulo 2, is 1.
pub fn binomial_is_odd(n: usize, k: usize) -> bool {
    let rising = |binomial: u128, i: usize| binomial * (n - i) as u128 / (i + 1) as u128;
    k <= n && (0..k).fold(1, rising) % 2 == 1
}

/// 1, the base, its square and so on.
pub fn powers(base: u8, length: usize) -> Vec<u8> {
    let all = std::iter::successors(Some(1), |&power| Some(times(power, base)));
    all.take(length).collect()
}

/// What each power, from 0 on, becomes at a point by the Hasse derivative of the given order: its
/// binomial over the order, counted modulo 2, times the power that is lower by the order.
fn derived_powers(order: usize, point: u8, length: usize) -> Vec<u8> {
    let powers = powers(point, length);
    let derived = |e: usize| match binomial_is_odd(e, order) {
        true => powers[e - order],
        false => 0,
    };
    (0..length).map(derived).collect()
}

fn add_times(total: &mut InX, factor: u8, shift: usize, part: &[u8]) {
    if factor == 0 || part.is_empty() {
        return;
    }
    if total.len() < part.len() + shift {
        total.resize(part.len() + shift, 0);
    }
    for (cell, &coefficient) in total[shift..].iter_mut().zip(part) {
        *cell = plus(*cell, times(factor, coefficient));
    }
}

fn product(f: &[u8], g: &[u8]) -> InX {
    let mut total = InX::new();
    for (power, &coefficient) in f.iter().enumerate() {
        add_times(&mut total, coefficient, power, g);
    }
    total
}

/// A polynomial in x and y: for each power of y, from 0 on, its polynomial in x.
#[derive(Clone)]
pub struct Polynomial {
    of_power: Vec<InX>,
}

impl Polynomial {
    pub fn zero(powers_of_y: usize) -> Self {
        Polynomial {
            of_power: vec![InX::new(); powers_of_y],
        }
    }

    /// The polynomial with the given coefficients in the monomials' order.
    pub fn from_list(v: usize, d: usize, coefficients: &[u8]) -> Self {
        let mut polynomial = Polynomial::zero(d / v + 1);
        for (&(a, b), &coefficient) in monomials_in_order(v, d).iter().zip(coefficients) {
            polynomial.add_monomial((a, b), coefficient);
        }
        polynomial
    }

    pub fn add_monomial(&mut self, (a, b): Monomial, coefficient: u8) {
        add_times(&mut self.of_power[b], coefficient, a, &[1]);
    }

    pub fn coefficient(&self, (a, b): Monomial) -> u8 {
        let in_x = self.of_power.get(b);
        in_x.and_then(|in_x| in_x.get(a)).copied().unwrap_or(0)
    }

    /// The monomials with a coefficient other than 0, each with that coefficient.
    pub fn terms(&self) -> Vec<(Monomial, u8)> {
        let mut terms = Vec::new();
        for (b, in_x) in self.of_power.iter().enumerate() {
            let all = in_x.iter().enumerate().map(|(a, &c)| ((a, b), c));
            terms.extend(all.filter(|&(_, c)| c != 0));
        }
        terms
    }

    pub fn add_multiple(&mut self, factor: u8, other: &Polynomial) {
        for (total, part) in self.of_power.iter_mut().zip(&other.of_power) {
            add_times(total, factor, 0, part);
        }
    }

    /// The product with x + c.
    pub fn times_x_plus(&self, c: u8) -> Self {
        let grown = |in_x: &InX| product(&[c, 1], in_x);
        Polynomial {
            of_power: self.of_power.iter().map(grown).collect(),
        }
    }

    /// The sum of each coefficient times the weights of its powers of x and of y.
    fn weighed(&self, of_x: &[u8], of_y: &[u8]) -> u8 {
        let sum = |in_x: &InX| {
            let terms = in_x.iter().zip(of_x).map(|(&c, &weight)| times(c, weight));
            terms.fold(0, plus)
        };
        let parts = self.of_power.iter().zip(of_y);
        parts.fold(0, |total, (in_x, &weight)| {
            plus(total, times(weight, sum(in_x)))
        })
    }

    /// How many powers of x and of y there are, from 0 on.
    pub fn powers(&self) -> (usize, usize) {
        let longest = self.of_power.iter().map(Vec::len).max();
        (longest.unwrap_or(0), self.of_power.len())
    }

    pub fn value_at(&self, x: u8, y: u8) -> u8 {
        let (powers_of_x, powers_of_y) = self.powers();
        self.weighed(&powers(x, powers_of_x), &powers(y, powers_of_y))
    }

    /// The Hasse derivative of order s in x and t in y, at a point.
    pub fn derivative_at(&self, (s, t): (usize, usize), (x, y): (u8, u8)) -> u8 {
        let (powers_of_x, powers_of_y) = self.powers();
        let of_x = derived_powers(s, x, powers_of_x);
        let of_y = derived_powers(t, y, powers_of_y);
        self.weighed(&of_x, &of_y)
    }

    /// Whether Q(x, f(x)) is identically zero.
    pub fn vanishes_on(&self, f: &[u8]) -> bool {
        let from_the_top = self.of_power.iter().rev();
        let substituted = from_the_top.fold(InX::new(), |total, in_x| {
            let mut next = product(&total, f);
            add_times(&mut next, 1, 0, in_x);
            next
        });
        substituted.iter().all(|&coefficient| coefficient == 0)
    }
}
