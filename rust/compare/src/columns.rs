//! The table of faults, continued: columns of reliabilities, whose sums are taken or not.

use crate::faults::{Input, Made};
use crate::sizes::with_entry;
use kv::Refusal;
use second::bound::cost;
use second::field::SYMBOLS;
use second::weights::{multiplicity, GREATEST_LEVEL, WHOLE};
use tags::Random;

pub const GREATEST_SUM: usize = WHOLE as usize;
/// The ends, what rounding down one by one leaves, and some between.
pub const GOOD_SUMS: [usize; 6] = [
    0,
    1,
    GREATEST_SUM / 2,
    GREATEST_SUM - 3,
    GREATEST_SUM - 1,
    GREATEST_SUM,
];

/// Columns that cost something at any level, and others of which the first has one too many.
pub const RELIABILITIES: Input = Input {
    contents: |made, _| {
        let mut clear = [0; SYMBOLS];
        clear[0] = GREATEST_SUM as u16;
        let mut columns = clear.repeat(made.length / SYMBOLS);
        columns.resize(made.length, 0);
        let cost = cost_at(made.call.level, &columns);
        let too_dear = (cost > made.call.limit).then_some(Refusal::Cost);
        let good = made.with(too_dear, |made| made.call.reliabilities = columns);
        let above = good.with([Refusal::Column(0)], |made| {
            let first = made.call.reliabilities.iter_mut().take(1);
            first.for_each(|reliability| *reliability = GREATEST_SUM as u16 + 1);
        });
        vec![good, above]
    },
    each_place: bad_columns,
};

/// The cost at a level up to the first that is too great.
fn cost_at(level: usize, reliabilities: &[u16]) -> usize {
    let level = level.min(GREATEST_LEVEL + 1);
    let entry = |&reliability: &u16| multiplicity(level, reliability);
    let matrix: Vec<u8> = reliabilities.iter().map(entry).collect();
    cost(&matrix)
}

/// Sums next above the greatest, those that look like a good one in 16 bits, and the greatest that
/// there is.
fn bad_sums() -> Vec<usize> {
    let beside = [GREATEST_SUM + 1, 2 * GREATEST_SUM];
    let carried = (1..SYMBOLS).map(|carries| carries << 16);
    let alike = carried.flat_map(|high| [high, high + GREATEST_SUM]);
    let greatest = SYMBOLS * usize::from(u16::MAX);
    beside.into_iter().chain(alike).chain([greatest]).collect()
}

/// A column with the given sum, filled from a random symbol on.
fn column(random: &mut Random, sum: usize) -> [u16; SYMBOLS] {
    let mut column = [0; SYMBOLS];
    let start = random.between(0, SYMBOLS - 1);
    let mut left = sum;
    for filled in 0..SYMBOLS {
        let rest_holds = (SYMBOLS - 1 - filled) * usize::from(u16::MAX);
        let most = left.min(u16::MAX.into());
        let reliability = random.between(left.saturating_sub(rest_holds), most);
        column[(start + filled) % SYMBOLS] = reliability as u16;
        left -= reliability;
    }
    column
}

/// Columns with the given sums.
pub fn columns(random: &mut Random, sums: &[usize]) -> Vec<u16> {
    let columns = sums.iter().map(|&sum| column(random, sum));
    columns.collect::<Vec<_>>().concat()
}

/// Sums that are taken, as many as there are positions.
pub fn good_sums(random: &mut Random, n: usize) -> Vec<usize> {
    let mut sum = || GOOD_SUMS[random.between(0, GOOD_SUMS.len() - 1)];
    (0..n).map(|_| sum()).collect()
}

fn bad_columns(made: &Made, random: &mut Random) -> Vec<Made> {
    let n = made.call.n;
    let mut all = Vec::new();
    for position in 0..n {
        for sum in bad_sums() {
            let later = random.between(position, n - 1);
            let level = random.between(1, GREATEST_LEVEL);
            let one_bad = with_entry(&good_sums(random, n), position, sum);
            let two_bad = with_entry(&one_bad, later, sum);
            for sums in [one_bad, two_bad] {
                all.push(made.with([Refusal::Column(position)], |made| {
                    made.call.level = level;
                    made.call.reliabilities = columns(random, &sums);
                }));
            }
        }
    }
    all
}
