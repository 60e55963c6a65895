//! Proposals of many kinds for one entry: what each is proposed for, and whether it is a yes.

use crate::call::Call;
use crate::comparison::Comparison;
use crate::entry::Entry;
use crate::faults::Made;
use crate::lists::with_room;
use crate::planned::weights::LISTED;
use crate::planted::greatest_degree;
use crate::proposed::beside::{multiple, one_off, own_degree, up_to};
use crate::proposed::inputs::{interpolated, with_proposal, Asked, Proposed};
use crate::proposed::products::Lines;
use crate::sizes::with_entry;
use second::bound::{bound, cost, GREATEST_LIMIT, GREATEST_MULTIPLICITY};
use second::code::{LEAST_SIZE, MOST_POSITIONS};
use second::field::SYMBOLS;
use second::proposal::Proposal;
use tags::{matrix_of, multiplicity, paired, within_cost};

const SEED: u64 = 18;
const PRODUCTS: usize = 4;

/// How a matrix comes in: as bytes, or held in a record.
pub type Put = fn(&Made) -> Made;

pub struct Proposing {
    pub comparison: Comparison,
    asked: Asked,
    put: Put,
    /// Each a yes up to the bound and above it, and each a no.
    pub seen: [usize; 4],
}

impl Proposing {
    pub fn new(entry: &'static Entry, asked: Asked, put: Put) -> Self {
        Proposing {
            comparison: Comparison::new(entry, SEED),
            asked,
            put,
            seen: [0; 4],
        }
    }

    fn between(&mut self, least: usize, greatest: usize) -> usize {
        self.comparison.random.between(least, greatest)
    }

    fn call(&self, n: usize, k: usize) -> Call {
        match self.asked {
            Asked::Check => Call::of_sizes(n, k),
            Asked::List => Call {
                limit: GREATEST_LIMIT,
                ..with_room(n, k)
            },
        }
    }

    /// A proposal that is a yes or a no.
    fn propose(&mut self, call: &Call, matrix: &[u8], proposed: Proposed, is_yes: bool) {
        let (degree, coefficients) = proposed;
        let is_above = degree > bound(call.k - 1, cost(matrix));
        self.seen[2 * usize::from(!is_yes) + usize::from(is_above)] += 1;
        let made = Made::new(Call {
            degree,
            ..call.clone()
        });
        let matrix = matrix.to_vec();
        let made = with_proposal(&made, self.asked, matrix, coefficients, is_yes);
        self.comparison.compare_made(&(self.put)(&made));
    }

    /// One of which only the second program says whether it is a yes.
    fn propose_any(&mut self, call: &Call, matrix: &[u8], (degree, coefficients): Proposed) {
        let proposal = Proposal {
            degree,
            coefficients: &coefficients,
        };
        let is_yes = proposal.is_yes(call.k, matrix);
        self.propose(call, matrix, (degree, coefficients), is_yes);
    }

    /// A matrix of multiplicities up to those of another.
    fn lower(&mut self, matrix: &[u8]) -> Vec<u8> {
        let mut up_to = |&m: &u8| self.between(0, m.into()) as u8;
        matrix.iter().map(&mut up_to).collect()
    }

    /// The matrix with one more at a place, if there is one that may rise.
    fn raised(&mut self, matrix: &[u8]) -> Option<Vec<u8>> {
        let places = (0..matrix.len()).filter(|&place| matrix[place] < GREATEST_MULTIPLICITY);
        let places: Vec<usize> = places.collect();
        let place = places[self.between(0, places.len().checked_sub(1)?)];
        Some(with_entry(matrix, place, matrix[place] + 1))
    }

    /// Products of lines for the greatest matrix through which they pass, for lower ones and for
    /// one that asks for one more.
    pub fn products(&mut self, n: usize, k: usize) {
        let (v, call) = (k - 1, self.call(n, k));
        let greatest = greatest_degree(v);
        for _ in 0..PRODUCTS {
            let most = self.between(0, greatest);
            let lines = Lines::random(&mut self.comparison.random, n, k, most);
            let degree = [lines.degree(v), most, greatest][self.between(0, 2)];
            let coefficients = lines.coefficients(v, degree);
            let coefficients = coefficients.expect("a degree that is no smaller");
            let matrix = lines.matrix();
            let lower = self.lower(&matrix);
            let cheap = within_cost(&mut self.comparison.random, matrix.clone(), GREATEST_LIMIT);
            for matrix in [&matrix, &lower, &cheap] {
                self.propose(&call, matrix, (degree, coefficients.clone()), true);
            }
            if let Some(matrix) = self.raised(&matrix) {
                self.propose(&call, &matrix, (degree, coefficients), false);
            }
        }
    }

    /// A yes: as it is, times a symbol, with one coefficient off, and with all of them 0.
    fn and_beside(&mut self, call: &Call, matrix: &[u8], (degree, coefficients): Proposed) {
        let (v, random) = (call.k - 1, &mut self.comparison.random);
        let multiple = multiple(&coefficients, random);
        let place = random.between(0, coefficients.len() - 1);
        let (off, is_yes) = one_off((v, degree), matrix, &coefficients, place, random);
        let zeros = vec![0; coefficients.len()];
        self.propose(call, matrix, (degree, coefficients), true);
        self.propose(call, matrix, (degree, multiple), true);
        self.propose(call, matrix, (degree, off), is_yes);
        self.propose(call, matrix, (degree, zeros), false);
    }

    /// What is interpolated, up to the bound, to its own degree and to one less, and to degrees on
    /// the other sides of the bound and of what N(D) allows.
    fn of_each_degree(&mut self, call: &Call, matrix: &[u8], (bound, coefficients): &Proposed) {
        let v = call.k - 1;
        let own = own_degree(v, *bound, coefficients);
        let greatest = greatest_degree(v);
        for degree in [own, *bound, bound + 1, greatest, greatest + 1] {
            let proposed = (degree, up_to(v, degree, coefficients));
            self.and_beside(call, matrix, proposed);
        }
        if own > 0 {
            let fewer = up_to(v, own - 1, coefficients);
            self.propose_any(call, matrix, (own - 1, fewer));
        }
    }

    /// What is interpolated where one point is left out, or counts one less.
    fn for_one_fewer(&mut self, call: &Call, matrix: &[u8]) {
        let places = (0..matrix.len()).filter(|&place| matrix[place] > 0);
        let places: Vec<usize> = places.collect();
        let Some(last) = places.len().checked_sub(1) else {
            return;
        };
        let place = places[self.between(0, last)];
        for entry in [0, matrix[place] - 1] {
            let fewer = with_entry(matrix, place, entry);
            self.propose_any(call, matrix, interpolated(call.n, call.k, &fewer));
        }
    }

    /// Matrices of words, and any; the limit is beside the cost, or as great as may be.
    pub fn words(&mut self, n: usize, k: usize) {
        for weights in LISTED {
            let level = multiplicity(&mut self.comparison.random);
            let matrix = matrix_of(&weights(&mut self.comparison.random, n), level.into());
            let matrix = within_cost(&mut self.comparison.random, matrix, GREATEST_LIMIT);
            let (proposed, call) = (interpolated(n, k, &matrix), self.call(n, k));
            self.of_each_degree(&call, &matrix, &proposed);
            self.for_one_fewer(&call, &matrix);
            self.limits_beside_cost(&call, &matrix, &proposed);
        }
    }

    /// Sixteen words in pairs and one beside them, raised until they cost too much for any limit.
    pub fn with_long_lists(&mut self) {
        let (n, k) = (MOST_POSITIONS, LEAST_SIZE);
        let call = self.call(n, k);
        for raised in 0.. {
            let matrix = paired(&mut self.comparison.random, raised);
            if cost(&matrix) > GREATEST_LIMIT {
                return;
            }
            self.and_beside(&call, &matrix, interpolated(n, k, &matrix));
        }
    }

    /// Limits on both sides of what the matrix costs, where a list is asked for.
    fn limits_beside_cost(&mut self, call: &Call, matrix: &[u8], proposed: &Proposed) {
        if matches!(self.asked, Asked::Check) {
            return;
        }
        let cost = cost(matrix);
        for limit in [cost.saturating_sub(1), cost] {
            let call = Call {
                limit,
                ..call.clone()
            };
            self.propose(&call, matrix, proposed.clone(), true);
            let zeros = vec![0; proposed.1.len()];
            self.propose(&call, matrix, (proposed.0, zeros), false);
        }
    }

    /// One number throughout, with lines through every point where the degree allows them, and with
    /// all but one of these.
    pub fn dearest(&mut self, n: usize, k: usize) {
        let (v, call) = (k - 1, self.call(n, k));
        let greatest = greatest_degree(v);
        for entry in 1..=GREATEST_MULTIPLICITY {
            let matrix = vec![entry; SYMBOLS * n];
            let lines = Lines::through(&matrix);
            let fewer = lines.without_one();
            let fewer = fewer.and_then(|lines| lines.coefficients(v, greatest));
            if let Some(coefficients) = lines.coefficients(v, greatest) {
                self.propose(&call, &matrix, (greatest, coefficients), true);
            }
            if let Some(coefficients) = fewer {
                self.propose(&call, &matrix, (greatest, coefficients), false);
            }
        }
    }
}
