//! The table of faults, continued: what a record that comes in can hold.

use crate::contents::{any_multiplicity, bad_multiplicity};
use crate::edited::wrongly_held::{every_forged, forged};
use crate::faults::{Input, Made};
use crate::record::Record;
use crate::sizes::{looks_like, with_entry};
use kv::Refusal;
use second::bound::{cost, GREATEST_MULTIPLICITY};
use second::code::MOST_POSITIONS;
use second::field::SYMBOLS;
use tags::Random;

/// Whether a record is rightly held.
#[derive(Clone, Copy, PartialEq)]
pub enum Holding {
    Right,
    Wrong,
}

/// Room that is written throughout; nothing else comes in.
pub const ROOM: Input = Input {
    contents: |made, _| vec![made.clone()],
    each_place: |_, _| Vec::new(),
};

/// A record that is read.
pub const RECORD: Input = Input {
    contents: records,
    each_place: |made, random| {
        let mut all = every_wrongly_held(made, random);
        for place in 0..SYMBOLS * made.call.n {
            let later = random.between(place, SYMBOLS * made.call.n - 1);
            let two = with_entry(&any_matrix(made, random), later, any_entry(random));
            let bad = with_entry(&two, place, bad_multiplicity(random));
            all.push(with_record(
                made,
                Record::of(made.call.n, &bad),
                Holding::Right,
            ));
        }
        all
    },
};

/// A record of which a column is cleared.
pub const COLUMN: Input = Input {
    contents: records,
    each_place: |made, random| {
        let mut all = every_wrongly_held(made, random);
        for place in 0..SYMBOLS * made.call.n {
            let bad = with_entry(&any_matrix(made, random), place, bad_multiplicity(random));
            let made = with_record(made, Record::of(made.call.n, &bad), Holding::Right);
            for position in [place / SYMBOLS, random.between(0, made.call.n - 1)] {
                all.push(made.with([], |made| made.call.edit.position = position));
            }
        }
        all
    },
};

/// A record of which an entry is set, and the entry.
pub const ENTRY: Input = Input {
    contents: |made, random| {
        let mut all = Vec::new();
        for made in records(made, random) {
            all.extend(entries(random).map(|entry| set(&made, entry)));
        }
        all
    },
    each_place: |made, random| {
        let mut all = Vec::new();
        for made in every_wrongly_held(made, random) {
            all.push(set(&made, any_multiplicity(random)));
        }
        for place in 0..SYMBOLS * made.call.n {
            let made = made.with([], |made| {
                made.call.edit.position = place / SYMBOLS;
                made.call.edit.symbol = place % SYMBOLS;
            });
            for record in with_and_without_bad(&made, place, random) {
                let made = with_record(&made, record, Holding::Right);
                all.extend(entries(random).map(|entry| set(&made, entry)));
            }
        }
        all
    },
};

/// With the faults of the record, and of what it costs.
pub fn with_record(made: &Made, record: Record, holding: Holding) -> Made {
    let wrongly_held = (holding == Holding::Wrong).then_some(Refusal::Length);
    let too_dear = (cost(&record.entries) > made.call.limit).then_some(Refusal::Cost);
    let faults = [wrongly_held, record.too_great(), too_dear];
    made.with(faults.into_iter().flatten(), |made| {
        made.call.records.push(record)
    })
}

/// As many columns as n looks like.
pub fn columns(n: usize) -> usize {
    looks_like(n).min(MOST_POSITIONS)
}

fn any_matrix(made: &Made, random: &mut Random) -> Vec<u8> {
    let greatest = any_multiplicity(random);
    random.bytes(SYMBOLS * columns(made.call.n), greatest)
}

fn any_entry(random: &mut Random) -> u8 {
    match random.happens(2) {
        true => bad_multiplicity(random),
        false => any_multiplicity(random),
    }
}

/// The matrix with an entry that is too great, where it has any.
pub fn with_bad(matrix: &[u8], random: &mut Random) -> Vec<u8> {
    match matrix.len() {
        0 => Vec::new(),
        length => {
            let place = random.between(0, length - 1);
            with_entry(matrix, place, bad_multiplicity(random))
        }
    }
}

/// Of little cost and too dear for any limit, each without and with an entry that is too great, and
/// wrongly held; half of them where the sizes are refused.
fn records(made: &Made, random: &mut Random) -> Vec<Made> {
    let n = made.call.n;
    let mut cheap = vec![0; SYMBOLS * columns(n)];
    cheap.iter_mut().take(1).for_each(|first| *first = 1);
    let costly = vec![GREATEST_MULTIPLICITY; cheap.len()];
    let mut all = Vec::new();
    for good in [cheap, costly] {
        let bad = Record::of(n, &with_bad(&good, random));
        let good = Record::of(n, &good);
        let right = if random.happens(2) { &good } else { &bad };
        all.push(with_record(made, forged(right, random), Holding::Wrong));
        all.push(with_record(made, good, Holding::Right));
        all.push(with_record(made, bad, Holding::Right));
    }
    match made.faults.contains(&Refusal::Sizes) {
        true => all.into_iter().step_by(2).collect(),
        false => all,
    }
}

/// In every way, of a record with or without an entry that is too great.
fn every_wrongly_held(made: &Made, random: &mut Random) -> Vec<Made> {
    let good = any_matrix(made, random);
    let matrix = match random.happens(2) {
        true => with_bad(&good, random),
        false => good,
    };
    let forged = every_forged(&Record::of(made.call.n, &matrix), random).into_iter();
    forged
        .map(|record| with_record(made, record, Holding::Wrong))
        .collect()
}

/// Two good entries and a bad one.
fn entries(random: &mut Random) -> [u8; 3] {
    [
        GREATEST_MULTIPLICITY,
        any_multiplicity(random),
        bad_multiplicity(random),
    ]
}

/// With the fault of an entry that is set inside the matrix.
fn set(made: &Made, entry: u8) -> Made {
    let edit = made.call.edit;
    let inside = edit.position < MOST_POSITIONS && edit.symbol < SYMBOLS;
    let bad = inside && entry > GREATEST_MULTIPLICITY;
    let fault = bad.then(|| Refusal::Symbol(SYMBOLS * edit.position + edit.symbol));
    made.with(fault, |made| made.call.edit.entry = entry)
}

/// A good record, one with a bad entry at the place, and one with a bad entry anywhere.
fn with_and_without_bad(made: &Made, place: usize, random: &mut Random) -> [Record; 3] {
    let good = any_matrix(made, random);
    let at_place = with_entry(&good, place, bad_multiplicity(random));
    let anywhere = with_bad(&good, random);
    [good, at_place, anywhere].map(|matrix| Record::of(made.call.n, &matrix))
}
