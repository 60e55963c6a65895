//! One list: judged, and opened.

use crate::counter::accidents::accident;
use crate::counter::case::Case;
use crate::counter::entry::{Entry, JUDGE, OPEN};
use crate::counter::faulty::faulty_lists;
use crate::counter::judging::{Judging, Seen};
use crate::counter::long::{last_bad, long_list, FAR};
use crate::counter::rows::{good_lists, Rows};
use crate::counter::written;
use crate::sizes::{looks_like, Sizes};
use second::code::{LEAST_SIZE, MOST_POSITIONS};

const LEAST_CALLS: usize = 130_000;
const LEAST_JUDGED: Seen = Seen {
    values: [0, 11_500, 10_000, 7_000],
    leads_reached: 2_300,
    leads_missed: 3_400,
    equal_scores: 5_600,
    first_messages_differ: 0,
    far_places: 1,
};
const LEAST_OPENED: Seen = Seen {
    values: [17_000, 11_500, 0, 0],
    ..LEAST_JUDGED
};
const SEED: u64 = 10;
const ACCIDENTS: usize = 40_000;

impl Judging {
    fn with_every_lead(&mut self, k: usize, rows: &Rows) {
        for lead in rows.leads() {
            self.compare_made(&Case::alone(k, rows, lead));
        }
    }

    /// Lists of any size, also of one that is refused: then of rows of the size that it looks like.
    fn of_size(&mut self, k: usize) {
        let seeming = looks_like(k).max(1);
        let good = good_lists(&mut self.random, seeming);
        let faulty = faulty_lists(&mut self.random, seeming);
        for rows in good.iter().chain(&faulty) {
            self.with_every_lead(k, rows);
        }
    }

    fn accidents_alone(&mut self) {
        for _ in 0..ACCIDENTS {
            let k = self.random.between(LEAST_SIZE, LEAST_SIZE + 1);
            let rows = accident(&mut self.random, k);
            let lead = self.random.between(0, 3);
            self.compare(&Case::alone(k, &rows, lead));
        }
    }
}

fn compare_entry(entry: &'static Entry, least: &Seen) {
    let mut judging = Judging::new(entry, SEED);
    for (_, k) in [Sizes::K.small(), Sizes::K.huge()].concat() {
        judging.of_size(k);
    }
    judging.accidents_alone();
    for list in written::lists() {
        let [_, k, _] = list.settings;
        judging.with_every_lead(k, &list.rows);
    }
    let rows = last_bad(&long_list(FAR));
    judging.compare_made(&Case::alone(MOST_POSITIONS, &rows, 1));
    judging.finish(LEAST_CALLS, least);
}

pub fn compare() {
    compare_entry(&JUDGE, &LEAST_JUDGED);
    compare_entry(&OPEN, &LEAST_OPENED);
}
