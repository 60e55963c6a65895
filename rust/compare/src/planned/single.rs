//! Single calls: every fault that one can have, and calls that have none.

use crate::call::Call;
use crate::comparison::Comparison;
use crate::entry::Entry;
use crate::faults::Made;
use crate::lists::with_room;
use crate::planned::entries::{
    CHECK_PLAN, LIST_OF_PLAN, MATRIX_CHECK_PLAN, MATRIX_LIST_OF_PLAN, PLAN,
};
use crate::planned::inputs::{held, with_plan};
use crate::planned::weights::{any_weights, Weights, KINDS, LISTED};
use crate::sizes::Sizes;
use crate::tally::{suffices, Named};
use kv::Refusal;
use second::bound::{cost, GREATEST_LIMIT};
use second::code::{LEAST_SIZE, MOST_POSITIONS};
use second::field::SYMBOLS;
use second::plan::{ruled, GREATEST_STEPS};

const SEED: u64 = 16;
const LEAST_PLANS: usize = 46_000;
const LEAST_CHECKS: usize = 30_000;
const LEAST_LISTS: usize = 24_000;
const LEAST_SEEN: Named<5> = [
    ("lists with rows", 250),
    ("with several", 50),
    ("rows in the longest", 4),
    ("equal scores", 80),
    ("with erased marks", 150),
];
const WEIGHTS_OF_A_KIND: usize = 6;
/// So many numbers of steps between those at the edges.
const STEPS_BETWEEN: usize = 8;
/// So often each sizes is called with faults of all kinds: those that have no k are fewer.
const FAULTS_OF_CHECKS: usize = 60;
const FAULTS_OF_LISTS: usize = 6;

/// How a plan comes in: as bytes, or held in a record.
type Put = fn(&Made) -> Made;

impl Comparison {
    fn any_steps(&mut self) -> usize {
        self.random.between(0, GREATEST_STEPS)
    }

    /// Reliabilities of each kind, with steps at the edges and between.
    fn plans(&mut self, n: usize) {
        for weights in KINDS.repeat(WEIGHTS_OF_A_KIND) {
            let reliabilities = weights(&mut self.random, n);
            let edges = [0, 1, GREATEST_STEPS - 1, GREATEST_STEPS];
            let between: Vec<usize> = (0..STEPS_BETWEEN).map(|_| self.any_steps()).collect();
            for steps in edges.into_iter().chain(between) {
                self.compare_good(Call {
                    steps,
                    reliabilities: reliabilities.clone(),
                    room: SYMBOLS * n,
                    ..Call::of_sizes(n, 0)
                });
            }
        }
    }

    /// A plan, right or not, with the faults of the steps that it is stated for.
    fn stated(&mut self, call: Call, plan: Vec<u8>, is_right: bool, put: Put) {
        let too_many = (call.steps > GREATEST_STEPS).then_some(Refusal::Setting);
        let another = (!is_right).then_some(Refusal::Plan);
        let made = Made::new(call).with(too_many, |_| ());
        self.compare_made(&put(&with_plan(&made, plan, another)));
    }

    /// Plans for reliabilities of each kind, stated for their steps and for others: right where both
    /// come to as many before the plan stops.
    fn stated_beside(&mut self, call: &Call, put: Put) {
        for weights in KINDS {
            let reliabilities = weights(&mut self.random, call.n);
            let most = ruled(GREATEST_STEPS, &reliabilities).steps;
            let done = [self.random.between(0, most), most][self.random.between(0, 1)];
            let later = self.random.between(done, GREATEST_STEPS);
            let beside = [done.saturating_sub(1), done, done + 1];
            let greater = [later, GREATEST_STEPS, GREATEST_STEPS + 1];
            for steps in [beside, greater].concat() {
                let call = Call {
                    steps,
                    reliabilities: reliabilities.clone(),
                    ..call.clone()
                };
                let plan = ruled(done, &reliabilities).entries;
                self.stated(call, plan, steps.min(most) == done, put);
            }
        }
    }

    /// A plan that stops, stated for every number of steps.
    fn stopped(&mut self, call: &Call, put: Put) {
        let mut weights = || any_weights(&mut self.random, call.n);
        let (reliabilities, stopped) = loop {
            let reliabilities = weights();
            let ruled = ruled(GREATEST_STEPS, &reliabilities);
            if ruled.steps < GREATEST_STEPS {
                break (reliabilities, ruled);
            }
        };
        for steps in 0..=GREATEST_STEPS + 1 {
            let call = Call {
                steps,
                reliabilities: reliabilities.clone(),
                ..call.clone()
            };
            let is_right = steps >= stopped.steps;
            self.stated(call, stopped.entries.clone(), is_right, put);
        }
    }

    /// Limits on both sides of what a plan costs.
    fn limits_beside_plan(&mut self, n: usize, k: usize, weights: Weights, put: Put) {
        let (steps, reliabilities) = (self.any_steps(), weights(&mut self.random, n));
        let plan = ruled(steps, &reliabilities).entries;
        let cost = cost(&plan);
        for limit in [cost.saturating_sub(1), cost, cost + 1] {
            let call = Call {
                limit: limit.min(GREATEST_LIMIT),
                steps,
                reliabilities: reliabilities.clone(),
                ..with_room(n, k)
            };
            self.stated(call, plan.clone(), true, put);
        }
    }
}

fn compare_made_plans() {
    let mut comparison = Comparison::new(&PLAN, SEED);
    comparison.faults();
    for n in LEAST_SIZE..=MOST_POSITIONS {
        comparison.plans(n);
    }
    comparison.finish(LEAST_PLANS);
}

fn compare_checks(entry: &'static Entry, put: Put) {
    let mut comparison = Comparison::new(entry, SEED);
    comparison.some_faults(FAULTS_OF_CHECKS);
    for n in LEAST_SIZE..=MOST_POSITIONS {
        let call = Call::of_sizes(n, 0);
        comparison.stated_beside(&call, put);
        comparison.stopped(&call, put);
    }
    comparison.finish(LEAST_CHECKS);
}

fn compare_lists(entry: &'static Entry, put: Put) {
    let mut comparison = Comparison::new(entry, SEED);
    comparison.some_faults(FAULTS_OF_LISTS);
    for (n, k) in Sizes::Both.allowed() {
        for weights in LISTED {
            comparison.limits_beside_plan(n, k, weights, put);
        }
    }
    for n in LEAST_SIZE..=MOST_POSITIONS {
        let k = comparison.random.between(LEAST_SIZE, n);
        let call = Call {
            limit: GREATEST_LIMIT,
            ..with_room(n, k)
        };
        comparison.stated_beside(&call, put);
    }
    comparison.finish(LEAST_LISTS);
    let seen = comparison.seen;
    let counts = [
        seen.lists,
        seen.lists_of_many,
        seen.longest,
        seen.equal_scores,
        seen.lists_with_erased_marks,
    ];
    let named = std::array::from_fn(|what| (LEAST_SEEN[what].0, counts[what]));
    suffices(named, LEAST_SEEN);
}

pub fn compare() {
    compare_made_plans();
    compare_checks(&CHECK_PLAN, Made::clone);
    compare_checks(&MATRIX_CHECK_PLAN, held);
    compare_lists(&LIST_OF_PLAN, Made::clone);
    compare_lists(&MATRIX_LIST_OF_PLAN, held);
}
