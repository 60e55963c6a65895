//! The table of faults, continued: two records that are added.

use crate::contents::bad_multiplicity;
use crate::edited::inputs::{columns, with_bad, with_record, Holding};
use crate::edited::wrongly_held::{every_forged, forged};
use crate::faults::{Input, Made};
use crate::record::Record;
use crate::sizes::with_entry;
use kv::Refusal;
use second::bound::GREATEST_MULTIPLICITY;
use second::field::SYMBOLS;
use tags::Random;

/// Entries up to these sum to no more than the greatest.
const GREATEST_OF_FIRST: u8 = 2;
const GREATEST_OF_SECOND: u8 = GREATEST_MULTIPLICITY - GREATEST_OF_FIRST;
/// Both are good, and their sum is not.
const TOO_GREAT_TOGETHER: [u8; 2] = [GREATEST_MULTIPLICITY, 1];
/// Their sum looks good in 8 bits.
const CARRIED: [[u8; 2]; 3] = [[250, 10], [u8::MAX, 1], [3, u8::MAX]];

pub const PAIR: Input = Input {
    contents: |made, random| {
        let [a, b] = good_pair(made, random);
        let mut greatest = b.clone();
        greatest.fill(GREATEST_MULTIPLICITY);
        let firsts = with_faults(made.call.n, a, random);
        let mut seconds = with_faults(made.call.edit.other_n, b, random);
        let greatest = Record::of(made.call.edit.other_n, &greatest);
        seconds.push((greatest, Holding::Right));
        let with_each = |first| seconds.iter().map(move |second| pair(made, first, second));
        firsts.iter().flat_map(with_each).collect()
    },
    each_place: |made, random| {
        let mut all = each_wrongly_held(made, random);
        for place in 0..SYMBOLS * made.call.n {
            all.extend(bad_at(made, place, random));
        }
        all
    },
};

type Held = (Record, Holding);

fn good_pair(made: &Made, random: &mut Random) -> [Vec<u8>; 2] {
    let [first, second] = [made.call.n, made.call.edit.other_n].map(columns);
    [
        random.bytes(SYMBOLS * first, GREATEST_OF_FIRST),
        random.bytes(SYMBOLS * second, GREATEST_OF_SECOND),
    ]
}

/// Good, with an entry that is too great, and both of these rightly held and not.
fn with_faults(n: usize, matrix: Vec<u8>, random: &mut Random) -> Vec<Held> {
    let mut all = Vec::new();
    for matrix in [with_bad(&matrix, random), matrix] {
        let right = Record::of(n, &matrix);
        all.push((forged(&right, random), Holding::Wrong));
        all.push((right, Holding::Right));
    }
    all
}

/// With the faults of both records and of their sum.
fn pair(made: &Made, (first, of_first): &Held, (second, of_second): &Held) -> Made {
    let both = first.entries.iter().zip(&second.entries);
    let mut sums = both.map(|(&a, &b)| u16::from(a) + u16::from(b));
    let place = sums.position(|sum| sum > GREATEST_MULTIPLICITY.into());
    let made = with_record(made, first.clone(), *of_first);
    let made = with_record(&made, second.clone(), *of_second);
    made.with(place.map(Refusal::Symbol), |_| ())
}

/// Either of them in every way, the other good.
fn each_wrongly_held(made: &Made, random: &mut Random) -> Vec<Made> {
    let good = good_pair(made, random).map(|matrix| Record::of(made.call.n, &matrix));
    let [a, b] = good.map(|record| (record, Holding::Right));
    let mut all = Vec::new();
    for record in every_forged(&a.0, random) {
        all.push(pair(made, &(record, Holding::Wrong), &b));
    }
    for record in every_forged(&b.0, random) {
        all.push(pair(made, &a, &(record, Holding::Wrong)));
    }
    all
}

/// Entries that are too great, in the first, in the second, in both or in the sum, at the place and
/// anywhere.
fn bad_at(made: &Made, place: usize, random: &mut Random) -> Vec<Made> {
    let good = good_pair(made, random);
    let anywhere = random.between(0, good[0].len() - 1);
    let bad = bad_multiplicity(random);
    let carried = CARRIED[random.between(0, CARRIED.len() - 1)];
    let at = |place: usize, [a, b]: [u8; 2], [first, second]: &[Vec<u8>; 2]| {
        [with_entry(first, place, a), with_entry(second, place, b)]
    };
    let mut all = Vec::new();
    for entries in [[bad, 0], [0, bad], [bad, bad], carried, TOO_GREAT_TOGETHER] {
        let one = at(place, entries, &good);
        all.push(at(anywhere, [0, bad], &one));
        all.push(at(anywhere, [bad, 0], &one));
        all.push(at(anywhere, TOO_GREAT_TOGETHER, &one));
        all.push(one);
    }
    let of = |matrix: Vec<u8>| (Record::of(made.call.n, &matrix), Holding::Right);
    let held = all.into_iter().map(|matrices| matrices.map(of));
    held.map(|[first, second]| pair(made, &first, &second))
        .collect()
}
