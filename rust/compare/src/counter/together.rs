//! Two lists: judged, and opened.

use crate::counter::accidents::accident;
use crate::counter::case::{Case, Photograph, Settings};
use crate::counter::entry::{Entry, JUDGE_BOTH, OPEN_BOTH};
use crate::counter::judging::{Judging, Seen};
use crate::counter::long::{last_as_first, last_bad, long_list, FAR};
use crate::counter::pool;
use crate::counter::rows::Rows;
use crate::counter::written::TAGS;
use crate::sizes::{looks_like, Sizes};
use second::code::{LEAST_SIZE, MOST_POSITIONS};
use second::weights::{GREATEST_LEVEL, LEAST_LEVEL};

const LEAST_CALLS: usize = 200_000;
const LEAST_JUDGED: Seen = Seen {
    values: [0, 16_000, 28_000, 5_000],
    leads_reached: 2_700,
    leads_missed: 3_900,
    equal_scores: 5_400,
    first_messages_differ: 17_000,
    far_places: 1,
};
const LEAST_OPENED: Seen = Seen {
    values: [33_000, 11_000, 5_000, 0],
    ..LEAST_JUDGED
};
const SEED: u64 = 12;
const ACCIDENTS: usize = 100_000;
/// The settings whose neighbours are tried.
const SETTINGS: [Settings; 3] = [[2, 2, 1], [9, 5, 3], [15, 15, 5]];

/// The settings, and others that have one number changed: allowed, not allowed, or alike in fewer
/// bits.
fn beside(settings: Settings) -> Vec<Settings> {
    let mut all = vec![settings];
    for (index, number) in settings.into_iter().enumerate() {
        let alike = [8, 16, 32, 63].map(|bits| number + (1 << bits));
        let near = [
            number - 1,
            number + 1,
            GREATEST_LEVEL + 1,
            MOST_POSITIONS + 1,
        ];
        let ends = [0, 1, usize::MAX];
        for other in [&near[..], &ends, &alike].concat() {
            let mut changed = settings;
            changed[index] = other;
            all.push(changed);
        }
    }
    all
}

impl Judging {
    /// With the leads of the list that is judged.
    fn with_its_leads(&mut self, settings: Settings, first: &Rows, second: &Rows) {
        let judged = match first.scores.is_empty() {
            true => second,
            false => first,
        };
        for lead in judged.leads() {
            self.compare_made(&Case::both(settings, [first, second], lead));
        }
    }

    fn every_pair(&mut self, settings: Settings, lists: &[Rows]) {
        for first in lists {
            for second in lists {
                self.with_its_leads(settings, first, second);
            }
        }
    }

    /// Lists of each kind with these settings, whatever they are.
    fn with_settings(&mut self, a: Settings, b: Settings) {
        let lists = |[_, k, _]: Settings| pool::of_each_kind(looks_like(k).max(LEAST_SIZE));
        let (firsts, seconds) = (lists(a), lists(b));
        let with_each = |first| seconds.iter().map(move |second| (first, second));
        for (rows, others) in firsts.iter().flat_map(with_each) {
            let (first, second) = (
                Photograph { settings: a, rows },
                Photograph {
                    settings: b,
                    rows: others,
                },
            );
            for lead in [0, 1] {
                self.compare_made(&Case {
                    first,
                    second,
                    lead,
                });
            }
        }
    }

    fn settings_beside(&mut self, settings: Settings) {
        for other in beside(settings) {
            self.with_settings(settings, other);
            self.with_settings(other, settings);
            self.with_settings(other, other);
        }
    }

    fn accidents_together(&mut self) {
        for _ in 0..ACCIDENTS {
            let k = self.random.between(LEAST_SIZE, LEAST_SIZE + 1);
            let [first, second] = [(); 2].map(|_| accident(&mut self.random, k));
            let lead = self.random.between(0, 3);
            let settings = [MOST_POSITIONS, k, GREATEST_LEVEL];
            self.compare(&Case::both(settings, [&first, &second], lead));
        }
    }

    /// Lists so long that the places of the second do not fit sixteen bits, and a message twice at
    /// the ends of a long list.
    fn long_lists(&mut self) {
        let settings = [MOST_POSITIONS, MOST_POSITIONS, GREATEST_LEVEL];
        let good = long_list(FAR / 2 + 1);
        for other in [last_bad(&good), last_as_first(&good)] {
            self.compare_made(&Case::both(settings, [&good, &other], 1));
        }
    }

    fn written_together(&mut self) {
        for [first, second] in TAGS.iter() {
            self.with_its_leads(first.settings, &first.rows, &second.rows);
            self.with_its_leads(first.settings, &second.rows, &first.rows);
        }
    }
}

fn compare_entry(entry: &'static Entry, least: &Seen) {
    let mut judging = Judging::new(entry, SEED);
    for k in LEAST_SIZE..=MOST_POSITIONS {
        let level = LEAST_LEVEL + k % GREATEST_LEVEL;
        judging.every_pair([MOST_POSITIONS, k, level], &pool::all(k));
    }
    for (n, k) in Sizes::Both.allowed() {
        for level in LEAST_LEVEL..=GREATEST_LEVEL {
            judging.with_settings([n, k, level], [n, k, level]);
        }
    }
    for settings in SETTINGS {
        judging.settings_beside(settings);
    }
    judging.accidents_together();
    judging.long_lists();
    judging.written_together();
    judging.finish(LEAST_CALLS, least);
}

pub fn compare() {
    compare_entry(&JUDGE_BOTH, &LEAST_JUDGED);
    compare_entry(&OPEN_BOTH, &LEAST_OPENED);
}
