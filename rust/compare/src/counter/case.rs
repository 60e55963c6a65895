//! A call of any of the counter's entries.

use crate::counter::rows::{Rows, NO_ROWS};
use crate::lent::Lent;
use kv::Refusal;
use second::code::{sizes_allowed, MOST_POSITIONS};
use second::counter::List;
use second::weights::{GREATEST_LEVEL, LEAST_LEVEL};

/// n, k and level.
pub type Settings = [usize; 3];

/// A list and its settings.
#[derive(Clone, Copy, Debug)]
pub struct Photograph<'a> {
    pub settings: Settings,
    pub rows: &'a Rows,
}

/// An entry looks at no more of it than it takes.
#[derive(Clone, Copy, Debug)]
pub struct Case<'a> {
    pub first: Photograph<'a>,
    pub second: Photograph<'a>,
    pub lead: usize,
}

fn run_on(fault: Refusal, after: usize) -> Refusal {
    match fault {
        Refusal::Symbol(place) => Refusal::Symbol(after + place),
        other => other,
    }
}

impl<'a> Case<'a> {
    /// One list, and no rows in the other.
    pub fn alone(k: usize, rows: &'a Rows, lead: usize) -> Self {
        Case::both([0, k, 0], [rows, &NO_ROWS], lead)
    }

    /// Two lists of the same settings.
    pub fn both(settings: Settings, lists: [&'a Rows; 2], lead: usize) -> Self {
        let [first, second] = lists.map(|rows| Photograph { settings, rows });
        Case {
            first,
            second,
            lead,
        }
    }

    /// Both lists as the library takes them.
    pub fn of_library<'b>(&self, lent: &'b Memory) -> [kv::Photograph<'b>; 2] {
        [
            self.first.of_library(&lent.first),
            self.second.of_library(&lent.second),
        ]
    }

    /// As the second program takes them.
    pub fn of_second<'b>(&self, lent: &'b Memory) -> [second::counter::Photograph<'b>; 2] {
        [
            self.first.of_second(&lent.first),
            self.second.of_second(&lent.second),
        ]
    }

    pub fn faults_of_first(&self) -> Vec<Refusal> {
        let [_, k, _] = self.first.settings;
        let bad_size = !sizes_allowed(MOST_POSITIONS, k);
        let sizes = bad_size.then_some(Refusal::Sizes);
        let lead = (self.lead == 0).then_some(Refusal::Setting);
        let of_rows = self.first.rows.faults.iter().copied();
        sizes.into_iter().chain(lead).chain(of_rows).collect()
    }

    pub fn faults_of_both(&self) -> Vec<Refusal> {
        let lists = [self.first, self.second];
        let [a, b] = lists.map(|photograph| photograph.settings);
        let bad_sizes = [a, b].iter().any(|&[n, k, _]| !sizes_allowed(n, k));
        let bad_level = |[_, _, level]: Settings| !(LEAST_LEVEL..=GREATEST_LEVEL).contains(&level);
        let bad_setting = self.lead == 0 || bad_level(a) || bad_level(b) || a != b;
        let sizes = bad_sizes.then_some(Refusal::Sizes);
        let setting = bad_setting.then_some(Refusal::Setting);
        let [first, second] = lists.map(|p| p.rows.faults.iter().copied());
        let after = self.first.rows.symbols.len();
        let second = second.map(|fault| run_on(fault, after));
        let of_numbers = sizes.into_iter().chain(setting);
        of_numbers.chain(first).chain(second).collect()
    }
}

/// A list as it is lent to a call.
pub struct LentList {
    pub rows: Lent<u8>,
    pub scores: Lent<u16>,
}

impl LentList {
    fn new(rows: &Rows) -> Self {
        LentList {
            rows: Lent::bytes(&rows.symbols),
            scores: Lent::numbers(&rows.scores),
        }
    }

    fn list(&self) -> List<'_> {
        List {
            rows: self.rows.part(),
            scores: self.scores.part(),
        }
    }
}

/// Both lists of a call as they are lent to it.
pub struct Memory {
    pub first: LentList,
    pub second: LentList,
}

impl Memory {
    pub fn lent_to(case: &Case) -> Self {
        Memory {
            first: LentList::new(case.first.rows),
            second: LentList::new(case.second.rows),
        }
    }
}

impl<'b> Photograph<'b> {
    pub fn first_message(&self) -> Option<&'b [u8]> {
        let [_, k, _] = self.settings;
        let message = self.rows.symbols.get(..k);
        message.filter(|_| !self.rows.scores.is_empty())
    }

    /// As the library takes it, with the list that is lent.
    fn of_library<'a>(&self, lent: &'a LentList) -> kv::Photograph<'a> {
        let [n, k, level] = self.settings;
        kv::Photograph {
            sizes: kv::Sizes { n, k },
            level,
            rows: lent.rows.part(),
            scores: lent.scores.part(),
        }
    }

    /// As the second program takes it.
    fn of_second<'a>(&self, lent: &'a LentList) -> second::counter::Photograph<'a> {
        let [n, k, level] = self.settings;
        second::counter::Photograph {
            n,
            k,
            level,
            list: lent.list(),
        }
    }
}
