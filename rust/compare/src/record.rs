//! Records of matrices, as they come to a call.

use crate::lent::Lent;
use kv::Refusal;
use second::bound::{cost, GREATEST_MULTIPLICITY};
use second::field::SYMBOLS;
use second::record::PLACES;

#[derive(Clone, Debug, PartialEq)]
pub struct Record {
    pub n: usize,
    pub cost: usize,
    pub totals: Vec<u16>,
    pub entries: Vec<u8>,
}

impl Record {
    /// The record of a matrix that is lent as bytes, rightly held, whatever its n and its entries.
    pub fn of(n: usize, matrix: &[u8]) -> Self {
        let mut entries = matrix.to_vec();
        entries.resize(PLACES, 0);
        let total = |column: &[u8]| column.iter().copied().map(u16::from).sum();
        Record {
            n,
            cost: cost(&entries),
            totals: entries.chunks(SYMBOLS).map(total).collect(),
            entries,
        }
    }

    /// The fault of its lowest entry that is too great.
    pub fn too_great(&self) -> Option<Refusal> {
        let place = |m: &u8| *m > GREATEST_MULTIPLICITY;
        self.entries.iter().position(place).map(Refusal::Symbol)
    }

    /// The matrix as it is lent in bytes.
    pub fn bytes(&self) -> &[u8] {
        &self.entries[..SYMBOLS * self.n]
    }
}

/// A record as it is lent to a call: n and cost are numbers.
#[derive(Clone, Debug, PartialEq)]
pub struct LentRecord {
    n: usize,
    cost: usize,
    totals: Lent<u16>,
    entries: Lent<u8>,
}

impl LentRecord {
    pub fn new(record: &Record) -> Self {
        LentRecord {
            n: record.n,
            cost: record.cost,
            totals: Lent::numbers(&record.totals),
            entries: Lent::bytes(&record.entries),
        }
    }

    /// What a call left in it that answers this cost.
    pub fn afterwards(&self, cost: u16) -> Record {
        Record {
            n: self.n,
            cost: cost.into(),
            totals: self.totals.part().to_vec(),
            entries: self.entries.part().to_vec(),
        }
    }

    pub fn of_library(&self) -> kv::lent::Record<'_> {
        kv::lent::Record {
            n: self.n,
            cost: self.cost,
            totals: self.totals.part(),
            entries: self.entries.part(),
        }
    }

    pub fn of_second(&self) -> second::record::Record<'_> {
        second::record::Record {
            n: self.n,
            cost: self.cost,
            totals: self.totals.part(),
            entries: self.entries.part(),
        }
    }

    pub fn edited_by_library(&mut self) -> kv::lent::Edited<'_> {
        kv::lent::Edited {
            n: self.n,
            cost: self.cost,
            totals: self.totals.part_mut(),
            entries: self.entries.part_mut(),
        }
    }

    pub fn edited_by_second(&mut self) -> second::record::Edited<'_> {
        second::record::Edited {
            n: self.n,
            cost: self.cost,
            totals: self.totals.part_mut(),
            entries: self.entries.part_mut(),
        }
    }
}
