//! Records that are not rightly held: for what is stored, for a length, or for an entry in an unused
//! column.

use crate::contents::bad_multiplicity;
use crate::record::Record;
use second::code::MOST_POSITIONS;
use second::field::SYMBOLS;
use second::record::PLACES;
use tags::{multiplicity, Random};

/// Makes a record that is rightly held another that is not.
type Forgery = fn(&mut Record, &mut Random);

const STORED: [Forgery; 13] = [
    |record, _| record.cost += 1,
    |record, _| record.cost = record.cost.wrapping_sub(1),
    |record, _| record.cost = usize::from(record.cost == 0),
    |record, _| record.cost = usize::MAX,
    |record, random| record.cost += 1 << [8, 16, 32, 63][random.between(0, 3)],
    |record, random| *any_total(record, random) += 1,
    |record, random| *any_total(record, random) += 1 << 8,
    |record, random| {
        let total = any_total(record, random);
        *total = total.wrapping_sub(1);
    },
    |record, random| {
        let column = random.between(1, MOST_POSITIONS - 1);
        record.totals[column] += 1;
        record.totals[column - 1] = record.totals[column - 1].wrapping_sub(1);
    },
    |record, random| {
        let column = random.between(1, MOST_POSITIONS - 1);
        match record.totals[column - 1] == record.totals[column] {
            true => record.totals[column] += 1,
            false => record.totals.swap(column - 1, column),
        }
    },
    raise,
    |record, random| {
        raise(record, random);
        record.cost = Record::of(record.n, &record.entries).cost;
    },
    |record, random| {
        raise(record, random);
        record.totals = Record::of(record.n, &record.entries).totals;
    },
];

const LENGTHS: [Forgery; 8] = [
    |record, _| record.totals.clear(),
    |record, _| record.totals.truncate(MOST_POSITIONS - 1),
    |record, _| record.totals.push(0),
    |record, _| record.totals.resize(MOST_POSITIONS + (1 << 8), 0),
    |record, _| record.entries.clear(),
    |record, _| record.entries.truncate(PLACES - 1),
    |record, _| record.entries.push(0),
    |record, _| record.entries.resize(PLACES + (1 << 8), 0),
];

/// Lengths that look right in 16 bits.
const FAR_LENGTHS: [Forgery; 2] = [
    |record, _| record.totals.resize(MOST_POSITIONS + (1 << 16), 0),
    |record, _| record.entries.resize(PLACES + (1 << 16), 0),
];

fn any_total<'a>(record: &'a mut Record, random: &mut Random) -> &'a mut u16 {
    &mut record.totals[random.between(0, MOST_POSITIONS - 1)]
}

/// An entry, anywhere, that is not the one for which cost and total were stored.
fn raise(record: &mut Record, random: &mut Random) {
    let place = random.between(0, PLACES - 1);
    record.entries[place] = record.entries[place].wrapping_add(1);
}

/// With an entry at a place of an unused column: cost and totals not stored with it, one of them, and
/// both.
fn with_unused(right: &Record, place: usize, entry: u8) -> [Record; 4] {
    let mut put = right.clone();
    put.entries[place] = entry;
    let counted = Record::of(put.n, &put.entries);
    let only_cost = Record {
        cost: counted.cost,
        ..put.clone()
    };
    let only_totals = Record {
        totals: counted.totals.clone(),
        ..put.clone()
    };
    [put, only_cost, only_totals, counted]
}

/// An entry other than 0.
fn any_other(random: &mut Random) -> u8 {
    match random.happens(2) {
        true => bad_multiplicity(random),
        false => multiplicity(random),
    }
}

fn by(forgery: Forgery, right: &Record, random: &mut Random) -> Record {
    let mut record = right.clone();
    forgery(&mut record, random);
    record
}

/// By what is stored, by a length, by both, or by an unused column, if there is one.
pub fn forged(right: &Record, random: &mut Random) -> Record {
    let stored = STORED[random.between(0, STORED.len() - 1)];
    let length = LENGTHS[random.between(0, LENGTHS.len() - 1)];
    match random.between(0, 3) {
        0 if right.n < MOST_POSITIONS => {
            let place = random.between(SYMBOLS * right.n, PLACES - 1);
            let [.., held] = with_unused(right, place, any_other(random));
            held
        }
        0 | 1 => by(stored, right, random),
        2 => by(length, right, random),
        _ => by(length, &by(stored, right, random), random),
    }
}

/// Each total, one more and one less.
fn each_total(right: &Record) -> Vec<Record> {
    let with = |column: usize, more: u16| {
        let mut record = right.clone();
        record.totals[column] = record.totals[column].wrapping_add(more);
        record
    };
    let columns = 0..MOST_POSITIONS;
    columns
        .flat_map(|c| [with(c, 1), with(c, u16::MAX)])
        .collect()
}

/// In every way, with each total and with each unused column.
pub fn every_forged(right: &Record, random: &mut Random) -> Vec<Record> {
    let far = match right.n {
        MOST_POSITIONS => FAR_LENGTHS.as_slice(),
        _ => &[],
    };
    let forgeries = STORED.iter().chain(&LENGTHS).chain(far);
    let mut all: Vec<Record> = forgeries.map(|&f| by(f, right, random)).collect();
    all.extend(each_total(right));
    for column in right.n..MOST_POSITIONS {
        let place = SYMBOLS * column + random.between(0, SYMBOLS - 1);
        all.extend(with_unused(right, place, any_other(random)));
    }
    all
}
