//! Sequences of edits: after each of them what is stored is what the entries define.

use crate::call::{Call, Edit, Outcome};
use crate::comparison::Comparison;
use crate::contents::{any_multiplicity, bad_multiplicity};
use crate::edited::alike::read_alike;
use crate::edited::entries::{ADD, CLEAR_COLUMN, FRESH, OF_BYTES, SET_ENTRY};
use crate::edited::wrongly_held::forged;
use crate::entry::Entry;
use crate::record::Record;
use crate::sizes::with_entry;
use crate::tally::{suffices, Named};
use second::bound::GREATEST_LIMIT;
use second::code::{LEAST_SIZE, MOST_POSITIONS};
use second::field::SYMBOLS;
use second::record::PLACES;
use std::process::exit;
use tags::{hard_word, multiplicity, random_codeword, with_wrong_marks, Random};

const SEED: u64 = 15;
const SEQUENCES: usize = 6;
const EDITS: usize = 300;
/// So many edits come between two readings.
const READ_EVERY: usize = 8;
/// A fault is put in once in so many edits.
const FAULT_IN: usize = 8;

#[derive(Default)]
struct Seen {
    edits: usize,
    refused: usize,
    read: usize,
    with_rows: usize,
    too_dear: usize,
}

const LEAST_SEEN: Seen = Seen {
    edits: 25_000,
    refused: 9_000,
    read: 3_000,
    with_rows: 750,
    too_dear: 120,
};

impl Seen {
    fn by_name(&self) -> Named<5> {
        [
            ("edits in sequence", self.edits),
            ("refused", self.refused),
            ("records read between them", self.read),
            ("with rows", self.with_rows),
            ("too dear", self.too_dear),
        ]
    }
}

/// A record that is edited, and the entries that it is to have.
struct Bench<'a> {
    random: &'a mut Random,
    seen: &'a mut Seen,
    k: usize,
    /// The codeword that marks are corrected to, mostly.
    word: Vec<u8>,
    record: Record,
    entries: Vec<u8>,
}

/// A call of an entry, and the entries that the record has afterwards where it is not refused.
struct Step {
    entry: &'static Entry,
    call: Call,
    afterwards: Vec<u8>,
}

/// What a call leaves that is not refused, whether it makes a record or edits one.
fn left(n: usize, Outcome { answer, memory }: &Outcome) -> Record {
    match memory.records.first() {
        Some(record) => record.afterwards(answer.cost),
        None => Record {
            n,
            cost: answer.cost.into(),
            totals: memory.scores.part().to_vec(),
            entries: memory.out.part().to_vec(),
        },
    }
}

impl Bench<'_> {
    fn n(&self) -> usize {
        self.record.n
    }

    /// The codeword with some marks wrong, m at each of its symbols.
    fn worn(&mut self, m: u8) -> Vec<u8> {
        let wrong = self.random.between(0, self.n());
        hard_word(&with_wrong_marks(self.random, &self.word, wrong), m)
    }

    /// A record made anew: fresh, or of bytes.
    fn make(&mut self) -> Step {
        let m = match self.random.happens(FAULT_IN) {
            true => bad_multiplicity(self.random),
            false => multiplicity(self.random),
        };
        let (entry, symbols) = match self.random.happens(2) {
            true => (&FRESH, Vec::new()),
            false => (&OF_BYTES, self.worn(m)),
        };
        let mut afterwards = symbols.clone();
        afterwards.resize(PLACES, 0);
        let call = Call {
            symbols,
            room: PLACES,
            room_for_scores: MOST_POSITIONS,
            ..Call::of_sizes(self.n(), 0)
        };
        Step {
            entry,
            call,
            afterwards,
        }
    }

    /// The record as an edit takes it: as it is, or wrongly held.
    fn taken(&mut self) -> Record {
        match self.random.happens(4 * FAULT_IN) {
            true => forged(&self.record, self.random),
            false => self.record.clone(),
        }
    }

    fn position(&mut self) -> usize {
        match self.random.happens(FAULT_IN) {
            true => self.random.between(0, MOST_POSITIONS),
            false => self.random.between(0, self.n() - 1),
        }
    }

    fn set(&mut self) -> Step {
        let position = self.position();
        let right = self.word.get(position).copied().unwrap_or(0);
        let symbol = match self.random.happens(3) {
            true => self.random.between(0, SYMBOLS),
            false => right.into(),
        };
        let entry = match self.random.happens(FAULT_IN) {
            true => bad_multiplicity(self.random),
            false => any_multiplicity(self.random),
        };
        let place = (SYMBOLS * position + symbol).min(PLACES - 1);
        let edit = Edit {
            position,
            symbol,
            entry,
            ..Edit::default()
        };
        let afterwards = with_entry(&self.entries, place, entry);
        self.edit(&SET_ENTRY, edit, None, afterwards)
    }

    fn clear(&mut self) -> Step {
        let position = self.position();
        let edit = Edit {
            position,
            ..Edit::default()
        };
        let mut afterwards = self.entries.clone();
        let column = afterwards.iter_mut().skip(SYMBOLS * position);
        column.take(SYMBOLS).for_each(|entry| *entry = 0);
        self.edit(&CLEAR_COLUMN, edit, None, afterwards)
    }

    /// Another record, at times with an entry that is too great, of another n or wrongly held.
    fn add(&mut self) -> Step {
        let mut matrix = self.worn(1);
        if self.random.happens(FAULT_IN) {
            let place = self.random.between(0, matrix.len() - 1);
            matrix[place] = bad_multiplicity(self.random);
        }
        let n = match self.random.happens(FAULT_IN) {
            true => self.n() + 1,
            false => self.n(),
        };
        let mut other = Record::of(n, &matrix);
        let sums = self.entries.iter().zip(&other.entries);
        let afterwards = sums.map(|(&a, &b)| a.wrapping_add(b)).collect();
        if self.random.happens(FAULT_IN) {
            other = forged(&other, self.random);
        }
        self.edit(&ADD, Edit::default(), Some(other), afterwards)
    }

    fn edit(
        &mut self,
        entry: &'static Entry,
        edit: Edit,
        other: Option<Record>,
        afterwards: Vec<u8>,
    ) -> Step {
        let records = [self.taken()].into_iter().chain(other);
        let call = Call {
            records: records.collect(),
            edit,
            ..Call::of_sizes(self.n(), 0)
        };
        Step {
            entry,
            call,
            afterwards,
        }
    }

    fn step(&mut self) -> Step {
        match self.random.between(0, 39) {
            0 => self.make(),
            1..=20 => self.set(),
            21..=23 => self.clear(),
            _ => self.add(),
        }
    }

    /// Ends the run unless the record has the entries that it is to have, and the numbers stored that
    /// they define.
    fn take(&mut self, step: Step) {
        let outcome = Comparison::new(step.entry, SEED).compare(&step.call);
        self.seen.edits += 1;
        match outcome.answer.number {
            0 => {
                self.record = left(self.n(), &outcome);
                self.entries = step.afterwards;
            }
            _ => self.seen.refused += 1,
        }
        let counted = Record::of(self.n(), &self.entries);
        if self.record != counted {
            eprintln!("{} differs on {:?}", step.entry.name, step.call);
            eprintln!("held: {:?}", self.record);
            eprintln!("counted: {counted:?}");
            exit(1);
        }
    }

    fn read(&mut self) {
        let rows = read_alike(&self.record, self.k, GREATEST_LIMIT);
        self.seen.read += 1;
        self.seen.with_rows += usize::from(rows > 0);
        self.seen.too_dear += usize::from(self.record.cost > GREATEST_LIMIT);
    }
}

fn sequence(random: &mut Random, seen: &mut Seen, n: usize) {
    let k = random.between(LEAST_SIZE, n);
    let mut bench = Bench {
        word: random_codeword(random, n, k),
        random,
        seen,
        k,
        record: Record::of(n, &[]),
        entries: vec![0; PLACES],
    };
    for edit in 1..=EDITS {
        let step = bench.step();
        bench.take(step);
        if edit % READ_EVERY == 0 {
            bench.read();
        }
    }
}

pub fn compare() {
    let (mut random, mut seen) = (Random::new(SEED), Seen::default());
    for n in LEAST_SIZE..=MOST_POSITIONS {
        for _ in 0..SEQUENCES {
            sequence(&mut random, &mut seen, n);
        }
    }
    suffices(seen.by_name(), LEAST_SEEN.by_name());
}
