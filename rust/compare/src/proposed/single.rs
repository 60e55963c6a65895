//! Single calls: every fault that one can have, and calls that have none.

use crate::entry::Entry;
use crate::faults::Made;
use crate::proposed::entries::{
    CHECK_PROPOSAL, LIST_OF_PROPOSAL, MATRIX_CHECK_PROPOSAL, MATRIX_LIST_OF_PROPOSAL,
};
use crate::proposed::inputs::{held, Asked};
use crate::proposed::proposing::{Proposing, Put};
use crate::sizes::Sizes;
use crate::tally::{suffices, Named};

const LEAST_CHECKS: usize = 68_000;
const LEAST_LISTS: usize = 42_000;
const LEAST_PROPOSED: Named<4> = [
    ("a yes up to the bound", 2_500),
    ("a yes above it", 2_500),
    ("a no up to the bound", 2_000),
    ("a no above it", 1_750),
];
const LEAST_LISTED: Named<4> = [
    ("lists with rows", 650),
    ("with several", 120),
    ("rows in the longest", 17),
    ("equal scores", 200),
];
/// So often each sizes is called with faults of all kinds.
const FAULTS: usize = 3;

fn named(counts: [usize; 4], least: Named<4>) -> Named<4> {
    std::array::from_fn(|what| (least[what].0, counts[what]))
}

fn proposals(mut proposing: Proposing, least_calls: usize) -> Proposing {
    proposing.comparison.some_faults(FAULTS);
    for (n, k) in Sizes::Both.allowed() {
        proposing.products(n, k);
        proposing.words(n, k);
        proposing.dearest(n, k);
    }
    proposing.with_long_lists();
    proposing.comparison.finish(least_calls);
    suffices(named(proposing.seen, LEAST_PROPOSED), LEAST_PROPOSED);
    proposing
}

fn compare_checks(entry: &'static Entry, put: Put) {
    proposals(Proposing::new(entry, Asked::Check, put), LEAST_CHECKS);
}

fn compare_lists(entry: &'static Entry, put: Put) {
    let proposing = Proposing::new(entry, Asked::List, put);
    let seen = proposals(proposing, LEAST_LISTS).comparison.seen;
    let counts = [
        seen.lists,
        seen.lists_of_many,
        seen.longest,
        seen.equal_scores,
    ];
    suffices(named(counts, LEAST_LISTED), LEAST_LISTED);
}

pub fn compare() {
    compare_checks(&CHECK_PROPOSAL, Made::clone);
    compare_checks(&MATRIX_CHECK_PROPOSAL, held);
    compare_lists(&LIST_OF_PROPOSAL, Made::clone);
    compare_lists(&MATRIX_LIST_OF_PROPOSAL, held);
}
