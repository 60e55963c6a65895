use crate::call::Call;
use crate::columns::{columns, good_sums, GOOD_SUMS, GREATEST_SUM, RELIABILITIES};
use crate::comparison::Comparison;
use crate::entry::Entry;
use crate::faults::{length, room, Choice, LEVEL};
use crate::lines::hold;
use crate::sizes::{huge_sizes, looks_like, with_entry, Sizes};
use crate::sums::sum_lines;
use second::code::{LEAST_SIZE, MOST_POSITIONS};
use second::field::SYMBOLS;
use second::weights::{GREATEST_LEVEL, LEAST_LEVEL};

const LEAST_CALLS: usize = 245_000;
const SEED: u64 = 2;
const RANDOM_WEIGHTS: usize = 100;

pub static ENTRY: Entry = Entry {
    name: "multiplicities",
    proved: |call, lent| {
        let (reliabilities, out) = (lent.reliabilities.part(), lent.out.part_mut());
        kv::lent::multiplicities(call.n, call.level, reliabilities, out)
    },
    second: |call, lent| {
        let (reliabilities, out) = (lent.reliabilities.part(), lent.out.part_mut());
        second::weights::multiplicities(call.n, call.level, reliabilities, out)
    },
    refusals: &[1, 2, 3, 4, 6],
    sizes: Sizes::N,
    choices: &[
        Choice {
            around: |greatest| [(0..=greatest + 2).collect(), huge_sizes()].concat(),
            ..LEVEL
        },
        room(|call| SYMBOLS * looks_like(call.n)),
        length(|call| SYMBOLS * looks_like(call.n)),
    ],
    input: RELIABILITIES,
};

impl Comparison {
    fn weighed(&mut self, level: usize, reliabilities: Vec<u16>) {
        let n = reliabilities.len() / SYMBOLS;
        self.compare_good(Call {
            level,
            room: reliabilities.len(),
            reliabilities,
            ..Call::of_sizes(n, 0)
        });
    }

    /// In a column that has the greatest sum, or nothing else.
    fn every_reliability(&mut self, level: usize) {
        for reliability in 0..=GREATEST_SUM {
            let sums = good_sums(&mut self.random, LEAST_SIZE);
            let mut weights = columns(&mut self.random, &sums);
            let position = self.random.between(0, LEAST_SIZE - 1);
            let symbol = self.random.between(0, SYMBOLS - 1);
            for rest in [GREATEST_SUM - reliability, 0] {
                let column = &mut weights[SYMBOLS * position..][..SYMBOLS];
                column.fill(0);
                column[symbol] = reliability as u16;
                column[SYMBOLS - 1 - symbol] = rest as u16;
                self.weighed(level, weights.clone());
            }
        }
    }

    /// Each good sum at each position, the others having the greatest or some good ones.
    fn every_good_sum(&mut self, n: usize, level: usize) {
        for position in 0..n {
            for sum in GOOD_SUMS {
                for others in [vec![GREATEST_SUM; n], good_sums(&mut self.random, n)] {
                    let sums = with_entry(&others, position, sum);
                    let weights = columns(&mut self.random, &sums);
                    self.weighed(level, weights);
                }
            }
        }
    }

    fn random_weights(&mut self, n: usize, level: usize) {
        for _ in 0..RANDOM_WEIGHTS {
            let mut sum = || self.random.between(0, GREATEST_SUM);
            let sums: Vec<usize> = (0..n).map(|_| sum()).collect();
            let weights = columns(&mut self.random, &sums);
            self.weighed(level, weights);
        }
    }
}

pub fn compare() {
    let mut comparison = Comparison::new(&ENTRY, SEED);
    comparison.faults();
    for level in LEAST_LEVEL..=GREATEST_LEVEL {
        comparison.every_reliability(level);
        for n in LEAST_SIZE..=MOST_POSITIONS {
            comparison.every_good_sum(n, level);
            comparison.random_weights(n, level);
        }
    }
    comparison.finish(LEAST_CALLS);
    hold(ENTRY.name, |program| sum_lines(&ENTRY, program));
}
