//! A record is read as its entries are that are lent as bytes.

use crate::call::Call;
use crate::edited::entries::{COST_AND_BOUND, INTERPOLATE, LIST};
use crate::entry::{Entry, Program};
use crate::lists::with_room;
use crate::record::Record;
use crate::sizes::Sizes;
use crate::{cost_and_bound, interpolation, list_of_multiplicities};
use second::bound::GREATEST_LIMIT;
use second::field::SYMBOLS;
use second::interpolation::ROOM_FOR_COEFFICIENTS;
use second::weights::WHOLE;
use std::process::exit;
use tags::{
    hard_word, matrix_of, multiplicity, random_codeword, random_matrix, soft_weights,
    with_wrong_marks, Random,
};

const SEED: u64 = 14;
const WORN_TAGS: usize = 5;
const LEAST_ROWS: usize = 800;

const PAIRS: [[&Entry; 2]; 3] = [
    [&COST_AND_BOUND, &cost_and_bound::ENTRY],
    [&INTERPOLATE, &interpolation::ENTRY],
    [&LIST, &list_of_multiplicities::ENTRY],
];

/// Ends the run unless each of the three entries that read a record answers and leaves in lent memory
/// what it does for the bytes. Answers how many rows are listed.
pub fn read_alike(record: &Record, k: usize, limit: usize) -> usize {
    let room = with_room(record.n, k);
    let call = Call {
        limit,
        room: room.room.max(ROOM_FOR_COEFFICIENTS),
        symbols: record.bytes().to_vec(),
        records: vec![record.clone()],
        ..room
    };
    let mut count = 0;
    for [of_record, of_bytes] in PAIRS {
        let [first, second] = [of_record, of_bytes].map(|e| e.outcome(Program::Proved, &call));
        if first != second {
            eprintln!(
                "{} and {} differ on {call:?}",
                of_record.name, of_bytes.name
            );
            eprintln!("of the record: {first:?}");
            eprintln!("of the bytes: {second:?}");
            exit(1);
        }
        count = first.answer.count;
    }
    count.into()
}

/// Hard words, soft ones and any matrix, of these sizes.
pub fn matrices(random: &mut Random, n: usize, k: usize) -> [Vec<u8>; 3] {
    let word = random_codeword(random, n, k);
    let wrong = random.between(0, (n - k) / 2 + 1);
    let word = with_wrong_marks(random, &word, wrong);
    let level = multiplicity(random);
    let soft = soft_weights(random, &word, WHOLE as usize / 2);
    let any = random_matrix(random, n, level, GREATEST_LIMIT + SYMBOLS);
    [hard_word(&word, level), matrix_of(&soft, level.into()), any]
}

pub fn compare() {
    let mut random = Random::new(SEED);
    let (mut read, mut rows) = (0, 0);
    for (n, k) in Sizes::Both.allowed() {
        for _ in 0..WORN_TAGS {
            for matrix in matrices(&mut random, n, k) {
                rows += read_alike(&Record::of(n, &matrix), k, GREATEST_LIMIT);
                read += 1;
            }
        }
    }
    if rows < LEAST_ROWS {
        eprintln!("{rows} rows were listed; at least {LEAST_ROWS} were to be");
        exit(1);
    }
    println!("compared records: {read} are read as their bytes are, {rows} rows listed");
}
