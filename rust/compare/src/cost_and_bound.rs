use crate::call::Call;
use crate::comparison::Comparison;
use crate::contents::MATRIX;
use crate::entry::Entry;
use crate::faults::{length, Made};
use crate::sizes::{looks_like, Sizes};
use kv::Refusal;
use second::bound::{cost_of_entry, GREATEST_LIMIT, GREATEST_MULTIPLICITY};
use second::code::{LEAST_SIZE, MOST_POSITIONS};
use second::field::SYMBOLS;
use std::sync::LazyLock;
use tags::shuffled;

const LEAST_CALLS: usize = 150_000;
const SEED: u64 = 3;
const RANDOM_MATRICES: usize = 10;

pub static ENTRY: Entry = Entry {
    name: "cost and bound",
    proved: |call, lent| kv::lent::cost_and_bound(call.n, call.k, lent.symbols.part()),
    second: |call, lent| second::bound::cost_and_bound(call.n, call.k, lent.symbols.part()),
    refusals: &[1, 3, 5],
    sizes: Sizes::Both,
    choices: &[length(|call| SYMBOLS * looks_like(call.n))],
    input: MATRIX,
};

/// The fewest entries of each cost, up to that of a matrix which is full.
static FEWEST_ENTRIES: LazyLock<Vec<Vec<u8>>> = LazyLock::new(|| {
    let greatest = SYMBOLS * MOST_POSITIONS * cost_of_entry(GREATEST_MULTIPLICITY);
    let mut fewest: Vec<Vec<u8>> = vec![Vec::new()];
    for cost in 1..=greatest {
        let ended_by = |m| {
            let others = &fewest[cost.checked_sub(cost_of_entry(m))?];
            Some([others.as_slice(), &[m]].concat())
        };
        let entries = (1..=GREATEST_MULTIPLICITY).filter_map(ended_by);
        let shortest = entries.min_by_key(Vec::len);
        fewest.push(shortest.expect("an entry of 1 costs 1"));
    }
    fewest
});

/// A matrix of n positions of the given cost, if there is one.
pub fn matrix_of_cost(n: usize, cost: usize) -> Option<Vec<u8>> {
    let mut matrix = FEWEST_ENTRIES.get(cost)?.clone();
    let fits = matrix.len() <= SYMBOLS * n;
    matrix.resize(SYMBOLS * n, 0);
    fits.then_some(matrix)
}

impl Comparison {
    fn bounded(&mut self, k: usize, matrix: Vec<u8>) {
        let n = matrix.len() / SYMBOLS;
        self.compare_good(Call {
            symbols: matrix,
            ..Call::of_sizes(n, k)
        });
    }

    fn every_cost(&mut self, k: usize) {
        for cost in 0..FEWEST_ENTRIES.len() {
            if let Some(matrix) = matrix_of_cost(MOST_POSITIONS, cost) {
                self.bounded(k, matrix);
            }
        }
    }

    /// Limits on both sides of the cost, and costs on both sides of the greatest limit.
    pub fn limits_beside_cost(&mut self, call: &Call, put: fn(&mut Call, Vec<u8>)) {
        for cost in [1, GREATEST_LIMIT - 1, GREATEST_LIMIT, GREATEST_LIMIT + 1] {
            let matrix =
                matrix_of_cost(call.n, cost).expect("two positions have room for this cost");
            let matrix = shuffled(&mut self.random, matrix);
            for limit in [cost - 1, cost, cost + 1, GREATEST_LIMIT] {
                let too_great = (limit > GREATEST_LIMIT).then_some(Refusal::Setting);
                let too_dear = (cost > limit).then_some(Refusal::Cost);
                let faults = too_great.into_iter().chain(too_dear);
                self.compare_made(&Made::new(call.clone()).with(faults, |made| {
                    made.call.limit = limit;
                    put(&mut made.call, matrix.clone());
                }));
            }
        }
    }

    /// Matrices of one number throughout, and random ones with few and with many great entries.
    fn matrices(&mut self, n: usize, k: usize) {
        for m in 0..=GREATEST_MULTIPLICITY {
            self.bounded(k, vec![m; SYMBOLS * n]);
        }
        for _ in 0..RANDOM_MATRICES {
            for greatest in 1..=GREATEST_MULTIPLICITY {
                let matrix = self.random.bytes(SYMBOLS * n, greatest);
                self.bounded(k, matrix);
            }
        }
    }
}

pub fn compare() {
    let mut comparison = Comparison::new(&ENTRY, SEED);
    comparison.faults();
    for k in LEAST_SIZE..=MOST_POSITIONS {
        comparison.every_cost(k);
    }
    for (n, k) in Sizes::Both.allowed() {
        comparison.matrices(n, k);
    }
    comparison.finish(LEAST_CALLS);
}
