//! Lists of rows as they come to the counter.

use kv::Refusal;
use second::field::GREATEST_SYMBOL;
use std::borrow::Borrow;
use std::cmp::Reverse;
use tags::Random;

/// A list, and the faults that were put into it.
#[derive(Clone, Debug)]
pub struct Rows {
    pub symbols: Vec<u8>,
    pub scores: Vec<u16>,
    pub faults: Vec<Refusal>,
}

pub static NO_ROWS: Rows = Rows {
    symbols: Vec::new(),
    scores: Vec::new(),
    faults: Vec::new(),
};

impl Rows {
    pub fn new(messages: &[impl Borrow<[u8]>], scores: &[u16]) -> Self {
        Rows {
            symbols: messages.concat(),
            scores: scores.to_vec(),
            faults: Vec::new(),
        }
    }

    pub fn with(&self, fault: Refusal, put: impl FnOnce(&mut Rows)) -> Rows {
        let mut rows = self.clone();
        rows.faults.push(fault);
        put(&mut rows);
        rows
    }

    /// By how much the first score leads the second.
    pub fn difference(&self) -> Option<usize> {
        match *self.scores {
            [first, second, ..] => first.checked_sub(second).map(usize::from),
            _ => None,
        }
    }

    /// A lead that is refused, those on both sides of what the first score leads by, some that look
    /// like this one in fewer bits, and the greatest.
    pub fn leads(&self) -> Vec<usize> {
        let difference = self.difference().unwrap_or(2);
        let mut leads = vec![
            0,
            1,
            difference.saturating_sub(1),
            difference,
            difference + 1,
        ];
        leads.extend([8, 16, 32, 63].map(|bits| difference + (1 << bits)));
        leads.push(usize::MAX);
        leads.sort();
        leads.dedup();
        leads
    }
}

/// The rows in list order.
pub fn in_order(rows: Vec<(Vec<u8>, u16)>) -> Rows {
    let mut rows: Vec<_> = rows.into_iter().map(|(m, s)| (Reverse(s), m)).collect();
    rows.sort();
    let (scores, messages): (Vec<_>, Vec<_>) = rows.into_iter().unzip();
    let scores: Vec<u16> = scores.into_iter().map(|Reverse(score)| score).collect();
    Rows::new(&messages, &scores)
}

/// A list of random messages with these scores.
pub fn list(random: &mut Random, k: usize, scores: &[u16]) -> Rows {
    let mut messages: Vec<Vec<u8>> = Vec::new();
    while messages.len() < scores.len() {
        let message = random.bytes(k, GREATEST_SYMBOL);
        if !messages.contains(&message) {
            messages.push(message);
        }
    }
    in_order(messages.into_iter().zip(scores.iter().copied()).collect())
}

const SCORES: [&[u16]; 10] = [
    &[],
    &[0],
    &[u16::MAX],
    &[7, 7],
    &[7, 6],
    &[300, 44],
    &[u16::MAX, 0],
    &[u16::MAX, u16::MAX],
    &[9, 7, 7, 7, 2],
    &[9, 5, 5, 4, 4, 0, 0],
];

/// Two messages that first differ at the given symbol, and where a later one tells otherwise.
pub fn first_differ_at(place: usize, k: usize) -> [Vec<u8>; 2] {
    let mut smaller = vec![0; k];
    let mut greater = smaller.clone();
    smaller[place + 1..].fill(GREATEST_SYMBOL);
    greater[place] = 1;
    [smaller, greater]
}

/// Lists that have no fault: of few scores and many, and with messages that are almost the same.
pub fn good_lists(random: &mut Random, k: usize) -> Vec<Rows> {
    let mut lists = SCORES.map(|scores| list(random, k, scores)).to_vec();
    for place in 0..k {
        let [smaller, greater] = first_differ_at(place, k);
        let mut beside = greater.clone();
        beside[place] = 2;
        let messages = [smaller, greater, beside];
        lists.push(Rows::new(&messages, &[7, 7, 7]));
        lists.push(Rows::new(&messages, &[9, 8, 2]));
    }
    lists
}
