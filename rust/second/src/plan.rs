//! The planner: every raise that a step could do is ranked, and a plan does the first of them.

use crate::bound::GREATEST_MULTIPLICITY;
use crate::code::n_allowed;
use crate::refusal::{symbol_above, unless_refused, Refusal};
use crate::weights::{column_above, entries};
use crate::Answer;
use std::cmp::Ordering;

pub const GREATEST_STEPS: usize = 75;

/// A raise of the entry at a place by one, to a multiplicity.
struct Raise {
    place: usize,
    reliability: u64,
    to: u64,
}

impl Raise {
    /// By falling reliability over the multiplicity that is raised to, as fractions; equal ones by
    /// place. The raises of an entry follow one another, since each has a smaller fraction.
    fn ranked(&self, other: &Raise) -> Ordering {
        let [ours, others] = [self.reliability * other.to, other.reliability * self.to];
        others.cmp(&ours).then(self.place.cmp(&other.place))
    }

    /// Whether a step does it: the entry has a reliability, and does not yet stand at the greatest.
    fn is_done(&self) -> bool {
        self.reliability > 0 && self.to <= GREATEST_MULTIPLICITY.into()
    }
}

/// Of each entry those to every multiplicity, and the one more at which a plan stops.
fn raises(reliabilities: &[u16]) -> Vec<Raise> {
    let of_entry = |(place, &reliability): (usize, &u16)| {
        let raise = move |to| Raise {
            place,
            reliability: reliability.into(),
            to,
        };
        (1..=u64::from(GREATEST_MULTIPLICITY) + 1).map(raise)
    };
    reliabilities
        .iter()
        .enumerate()
        .flat_map(of_entry)
        .collect()
}

/// What the rule gives: the entries, and the steps done.
pub struct Ruled {
    pub entries: Vec<u8>,
    pub steps: usize,
}

/// The rule's result for so many steps.
pub fn ruled(steps: usize, reliabilities: &[u16]) -> Ruled {
    let mut raises = raises(reliabilities);
    raises.sort_by(Raise::ranked);
    let mut ruled = Ruled {
        entries: vec![0; reliabilities.len()],
        steps: 0,
    };
    for raise in raises.iter().take(steps).take_while(|r| r.is_done()) {
        ruled.entries[raise.place] = raise.to as u8;
        ruled.steps += 1;
    }
    ruled
}

pub fn plan(n: usize, steps: usize, reliabilities: &[u16], out: &mut [u8]) -> Answer {
    let tests = [
        (!n_allowed(n)).then_some(Refusal::Sizes),
        (steps > GREATEST_STEPS).then_some(Refusal::Setting),
        (reliabilities.len() as u128 != entries(n)).then_some(Refusal::Length),
        ((out.len() as u128) < entries(n)).then_some(Refusal::Room),
        column_above(reliabilities),
    ];
    unless_refused(&tests, || {
        let ruled = ruled(steps, reliabilities);
        out[..ruled.entries.len()].copy_from_slice(&ruled.entries);
        Answer {
            count: ruled.entries.len() as u16,
            value: ruled.steps as u16,
            ..Answer::default()
        }
    })
}

/// A plan from outside, and what it is stated to be the rule's result for.
#[derive(Clone, Copy)]
pub struct Stated<'a> {
    pub steps: usize,
    pub reliabilities: &'a [u16],
    pub entries: &'a [u8],
}

impl Stated<'_> {
    pub fn has_lengths(&self, n: usize) -> bool {
        let lengths = [self.reliabilities.len(), self.entries.len()];
        lengths.iter().all(|&length| length as u128 == entries(n))
    }

    /// The last line of the table, and else what the work answers, which is told the steps done.
    pub fn unless_refused(&self, work: impl FnOnce(usize) -> Answer) -> Answer {
        let ruled = ruled(self.steps, self.reliabilities);
        let another = (ruled.entries != self.entries).then_some(Refusal::Plan);
        unless_refused(&[another], || work(ruled.steps))
    }
}

pub fn check_plan(n: usize, stated: Stated) -> Answer {
    let tests = [
        (!n_allowed(n)).then_some(Refusal::Sizes),
        (stated.steps > GREATEST_STEPS).then_some(Refusal::Setting),
        (!stated.has_lengths(n)).then_some(Refusal::Length),
        symbol_above(GREATEST_MULTIPLICITY, stated.entries),
        column_above(stated.reliabilities),
    ];
    unless_refused(&tests, || {
        stated.unless_refused(|steps| Answer {
            value: steps as u16,
            ..Answer::default()
        })
    })
}
