//! A tag: four settings, and marks that have a weight for each symbol.

use kv::{CostAndBound, Refusal, Settings, Sizes, SYMBOLS, WHOLE};
use std::cmp::Reverse;

/// The settings as the documents name them: marks, symbols of a message, level, limit on the cost.
pub const NAMES: [&str; 4] = ["n", "k", "L", "G"];
const MOST_OF_THE_WEIGHT: u16 = WHOLE / 4 * 3;

#[derive(Clone, Copy, Debug, Default, PartialEq, Eq)]
pub struct Mark(pub [u16; SYMBOLS]);

#[derive(Clone, Debug, Default, PartialEq, Eq)]
pub struct Tag {
    /// In the order of [`NAMES`]. Any numbers, also those that the program refuses.
    pub settings: [u8; NAMES.len()],
    /// As many as n says.
    pub marks: Vec<Mark>,
}

impl Mark {
    pub fn sum(&self) -> usize {
        self.0.iter().map(|&weight| usize::from(weight)).sum()
    }

    /// The symbols that have weight, strongest first, equal ones by the symbol.
    pub fn ranked(&self) -> Vec<(usize, u16)> {
        let symbols = self.0.into_iter().enumerate();
        let mut weighed: Vec<_> = symbols.filter(|&(_, weight)| weight > 0).collect();
        weighed.sort_by_key(|&(_, weight)| Reverse(weight));
        weighed
    }

    pub fn strongest(&self) -> u16 {
        self.0.into_iter().max().unwrap_or_default()
    }

    /// What is to be said of the mark. It is worn where no symbol has most of the weight.
    pub fn word(&self) -> &'static str {
        match (self.sum(), self.strongest()) {
            (0, _) => "erased",
            (sum, _) if sum > WHOLE.into() => "over",
            (_, strongest) if strongest < MOST_OF_THE_WEIGHT => "worn",
            _ => "",
        }
    }
}

impl Tag {
    pub fn sizes_and_settings(&self) -> (Sizes, Settings) {
        let [n, k, level, limit] = self.settings.map(usize::from);
        (Sizes { n, k }, Settings { level, limit })
    }

    pub fn weights(&self) -> Vec<u16> {
        self.marks.iter().flat_map(|mark| mark.0).collect()
    }

    pub fn cost_and_bound(&self) -> Result<CostAndBound, Refusal> {
        let (sizes, Settings { level, .. }) = self.sizes_and_settings();
        let matrix = kv::multiplicities(sizes.n, level, &self.weights())?;
        kv::cost_and_bound(sizes, &matrix)
    }
}
