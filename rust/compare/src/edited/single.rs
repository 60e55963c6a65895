//! Single calls: every fault that one can have, and calls that have none.

use crate::call::{Call, Edit};
use crate::comparison::Comparison;
use crate::contents::any_multiplicity;
use crate::cost_and_bound::matrix_of_cost;
use crate::edited::entries::{
    ADD, CLEAR_COLUMN, COST_AND_BOUND, FRESH, INTERPOLATE, LIST, OF_BYTES, SET_ENTRY,
};
use crate::entry::Entry;
use crate::faults::Made;
use crate::lists::with_room;
use crate::record::Record;
use second::bound::GREATEST_MULTIPLICITY;
use second::code::{LEAST_SIZE, MOST_POSITIONS};
use second::field::SYMBOLS;
use second::interpolation::ROOM_FOR_COEFFICIENTS;
use second::record::PLACES;

const SEED: u64 = 13;
const RANDOM_MATRICES: usize = 20;
const COSTS_BETWEEN: usize = 7;

impl Comparison {
    fn any_record(&mut self, n: usize) -> Record {
        let greatest = any_multiplicity(&mut self.random);
        Record::of(n, &self.random.bytes(SYMBOLS * n, greatest))
    }

    fn with_record(&mut self, record: Record, edit: Edit) {
        let call = Call {
            records: vec![record],
            edit,
            ..Call::of_sizes(0, 0)
        };
        self.compare_made(&Made::new(call));
    }

    /// Any matrix turned into a record.
    fn turned(&mut self, n: usize) {
        for _ in 0..RANDOM_MATRICES {
            let matrix = self.any_record(n).bytes().to_vec();
            self.compare_made(&Made::new(Call {
                symbols: matrix,
                room: PLACES,
                room_for_scores: MOST_POSITIONS,
                ..Call::of_sizes(n, 0)
            }));
        }
    }

    /// Each entry that there may be, at each place.
    fn set(&mut self, n: usize) {
        for place in 0..SYMBOLS * n {
            for entry in 0..=GREATEST_MULTIPLICITY {
                let record = self.any_record(n);
                let edit = Edit {
                    position: place / SYMBOLS,
                    symbol: place % SYMBOLS,
                    entry,
                    ..Edit::default()
                };
                self.with_record(record, edit);
            }
        }
    }

    fn cleared(&mut self, n: usize) {
        for position in 0..n {
            for _ in 0..RANDOM_MATRICES {
                let record = self.any_record(n);
                let edit = Edit {
                    position,
                    ..Edit::default()
                };
                self.with_record(record, edit);
            }
        }
    }

    /// Sums up to the greatest entry, and with zeros.
    fn added(&mut self, n: usize) {
        for _ in 0..RANDOM_MATRICES {
            let first = self.any_record(n);
            let mut up_to = |most: u8| self.random.between(0, most.into()) as u8;
            let rest = first.bytes().iter();
            let rest: Vec<u8> = rest.map(|m| up_to(GREATEST_MULTIPLICITY - m)).collect();
            let fresh = Record::of(n, &[]);
            for second in [Record::of(n, &rest), fresh] {
                self.compare_made(&Made::new(Call {
                    records: vec![first.clone(), second],
                    ..Call::of_sizes(n, 0)
                }));
            }
        }
    }

    /// Costs up to that of a matrix which is full.
    fn bounds_of_records(&mut self, n: usize) {
        for cost in (0..).step_by(COSTS_BETWEEN) {
            let Some(matrix) = matrix_of_cost(n, cost) else {
                return;
            };
            let k = self.random.between(LEAST_SIZE, n);
            self.compare_made(&Made::new(Call {
                records: vec![Record::of(n, &matrix)],
                ..Call::of_sizes(n, k)
            }));
        }
    }
}

/// Every fault, and then what else is compared for each n.
fn of_each_n(entry: &'static Entry, least_calls: usize, compared: fn(&mut Comparison, usize)) {
    let mut comparison = Comparison::new(entry, SEED);
    comparison.faults();
    for n in LEAST_SIZE..=MOST_POSITIONS {
        compared(&mut comparison, n);
    }
    comparison.finish(least_calls);
}

/// Limits beside the cost of a record of n positions, with any k.
fn limits(comparison: &mut Comparison, n: usize, with_room: fn(usize, usize) -> Call) {
    let k = comparison.random.between(LEAST_SIZE, n);
    comparison.limits_beside_cost(&with_room(n, k), |call, matrix| {
        call.records = vec![Record::of(call.n, &matrix)];
    });
}

fn with_room_for_coefficients(n: usize, k: usize) -> Call {
    Call {
        room: ROOM_FOR_COEFFICIENTS,
        ..Call::of_sizes(n, k)
    }
}

pub fn compare() {
    of_each_n(&FRESH, 3_200, |_, _| ());
    of_each_n(&OF_BYTES, 76_000, Comparison::turned);
    of_each_n(&SET_ENTRY, 42_000, Comparison::set);
    of_each_n(&CLEAR_COLUMN, 9_000, Comparison::cleared);
    of_each_n(&ADD, 45_000, Comparison::added);
    of_each_n(&COST_AND_BOUND, 35_000, Comparison::bounds_of_records);
    of_each_n(&INTERPOLATE, 99_000, |comparison, n| {
        limits(comparison, n, with_room_for_coefficients);
    });
    of_each_n(&LIST, 95_000, |comparison, n| {
        limits(comparison, n, with_room)
    });
}
