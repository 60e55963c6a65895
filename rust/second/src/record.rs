//! The matrix that is edited: whatever its record says of it is counted anew, in every call.

use crate::bound::{self, GREATEST_LIMIT, GREATEST_MULTIPLICITY};
use crate::code::{n_allowed, sizes_allowed, MOST_POSITIONS};
use crate::field::SYMBOLS;
use crate::interpolation;
use crate::list;
use crate::plan::{self, Stated, GREATEST_STEPS};
use crate::proposal::{self, Proposal};
use crate::refusal::{answered, refuse, unless_refused, Refusal};
use crate::weights::entries;
use crate::Answer;

/// The entries of a record, whatever its n is.
pub const PLACES: usize = SYMBOLS * MOST_POSITIONS;

/// A record as it comes in.
#[derive(Clone, Copy)]
pub struct Record<'a> {
    pub n: usize,
    pub cost: usize,
    pub totals: &'a [u16],
    pub entries: &'a [u8],
}

/// A record that is changed.
pub struct Edited<'a> {
    pub n: usize,
    pub cost: usize,
    pub totals: &'a mut [u16],
    pub entries: &'a mut [u8],
}

/// The entries as numbers that nothing overflows, each at 16i + b.
type Numbers = Vec<u64>;

fn numbers<T: Copy + Into<u64>>(lent: &[T]) -> Numbers {
    lent.iter().map(|&number| number.into()).collect()
}

fn cost(matrix: &[u64]) -> u64 {
    matrix.iter().map(|m| m * (m + 1) / 2).sum()
}

fn totals(matrix: &[u64]) -> Numbers {
    let columns = matrix.chunks(SYMBOLS);
    columns.map(|column| column.iter().sum()).collect()
}

impl Record<'_> {
    /// Whether the stored numbers are those of the entries, and unused columns are zero.
    fn is_right(&self) -> bool {
        let matrix = numbers(self.entries);
        let unused = |&(place, _): &(usize, &u64)| place / SYMBOLS >= self.n;
        self.totals.len() == MOST_POSITIONS
            && self.entries.len() == PLACES
            && numbers(self.totals) == totals(&matrix)
            && self.cost as u64 == cost(&matrix)
            && matrix
                .iter()
                .enumerate()
                .filter(unused)
                .all(|(_, &m)| m == 0)
    }

    /// The matrix as it is lent in bytes, of a record that is right.
    fn bytes(&self) -> &[u8] {
        &self.entries[..SYMBOLS * self.n]
    }

    /// The same as a plan.
    fn stated<'b>(&'b self, steps: usize, reliabilities: &'b [u16]) -> Stated<'b> {
        Stated {
            steps,
            reliabilities,
            entries: self.bytes(),
        }
    }
}

impl Edited<'_> {
    fn as_it_is(&self) -> Record<'_> {
        Record {
            n: self.n,
            cost: self.cost,
            totals: self.totals,
            entries: self.entries,
        }
    }
}

/// The refusal of the lowest place at which any of the matrices has too great an entry.
fn refuse_entries(matrices: &[&Numbers]) -> Result<(), Refusal> {
    let too_great = |place: &usize| {
        let entry_in = |matrix: &&Numbers| matrix.get(*place).copied().unwrap_or(0);
        let mut entries = matrices.iter().map(entry_in);
        entries.any(|m| m > GREATEST_MULTIPLICITY.into())
    };
    let lowest = (0..PLACES).find(too_great);
    lowest.map_or(Ok(()), |place| Err(Refusal::Symbol(place)))
}

/// Writes the record of a matrix, and answers its cost.
fn write(matrix: &[u64], to_totals: &mut [u16], to_entries: &mut [u8]) -> Answer {
    for (total, counted) in to_totals.iter_mut().zip(totals(matrix)) {
        *total = counted as u16;
    }
    for (entry, &m) in to_entries.iter_mut().zip(matrix) {
        *entry = m as u8;
    }
    Answer {
        cost: cost(matrix) as u16,
        ..Answer::default()
    }
}

/// A record made of bytes.
fn made(
    n: usize,
    matrix: &[u8],
    to_totals: &mut [u16],
    to_entries: &mut [u8],
) -> Result<Answer, Refusal> {
    refuse(!n_allowed(n), Refusal::Sizes)?;
    let right_lengths = matrix.len() as u128 == entries(n)
        && to_totals.len() == MOST_POSITIONS
        && to_entries.len() == PLACES;
    refuse(!right_lengths, Refusal::Length)?;
    let mut made = numbers(matrix);
    refuse_entries(&[&made])?;
    made.resize(PLACES, 0);
    Ok(write(&made, to_totals, to_entries))
}

pub fn fresh(n: usize, to_totals: &mut [u16], to_entries: &mut [u8]) -> Answer {
    let zeros = vec![0; SYMBOLS * n.min(MOST_POSITIONS)];
    answered(made(n, &zeros, to_totals, to_entries))
}

pub fn of_bytes(n: usize, matrix: &[u8], to_totals: &mut [u16], to_entries: &mut [u8]) -> Answer {
    answered(made(n, matrix, to_totals, to_entries))
}

/// An edit where the sizes are allowed: the matrices that go in are right, and none that goes in or
/// comes out has too great an entry.
fn edited(
    record: Edited,
    sizes_allowed: bool,
    other: Option<Record>,
    change: impl FnOnce(&mut Numbers),
) -> Result<Answer, Refusal> {
    refuse(!n_allowed(record.n) || !sizes_allowed, Refusal::Sizes)?;
    let other_is_right = other.is_none_or(|other| other.is_right());
    refuse(
        !record.as_it_is().is_right() || !other_is_right,
        Refusal::Length,
    )?;
    let before = numbers(record.entries);
    let mut after = before.clone();
    change(&mut after);
    let added = other.map_or(Numbers::new(), |other| numbers(other.entries));
    refuse_entries(&[&before, &added, &after])?;
    Ok(write(&after, record.totals, record.entries))
}

pub fn set_entry(record: Edited, position: usize, symbol: usize, entry: u8) -> Answer {
    let inside = position < record.n && symbol < SYMBOLS;
    answered(edited(record, inside, None, |matrix| {
        matrix[SYMBOLS * position + symbol] = entry.into();
    }))
}

pub fn clear_column(record: Edited, position: usize) -> Answer {
    let inside = position < record.n;
    answered(edited(record, inside, None, |matrix| {
        matrix[SYMBOLS * position..][..SYMBOLS].fill(0);
    }))
}

pub fn add(record: Edited, other: Record) -> Answer {
    let equal = other.n == record.n;
    answered(edited(record, equal, Some(other), |matrix| {
        for (m, more) in matrix.iter_mut().zip(numbers(other.entries)) {
            *m += more;
        }
    }))
}

pub fn cost_and_bound(record: Record, k: usize) -> Answer {
    let tests = [
        (!sizes_allowed(record.n, k)).then_some(Refusal::Sizes),
        (!record.is_right()).then_some(Refusal::Length),
    ];
    unless_refused(&tests, || {
        bound::cost_and_bound(record.n, k, record.bytes())
    })
}

/// The tests of a record, and of its limit, that come before those of room.
fn tests_with_limit(record: Record, k: usize, limit: usize) -> [Option<Refusal>; 3] {
    [
        (!sizes_allowed(record.n, k)).then_some(Refusal::Sizes),
        (limit > GREATEST_LIMIT).then_some(Refusal::Setting),
        (!record.is_right()).then_some(Refusal::Length),
    ]
}

pub fn interpolate(record: Record, k: usize, limit: usize, out: &mut [u8]) -> Answer {
    unless_refused(&tests_with_limit(record, k, limit), || {
        interpolation::interpolate(record.n, k, limit, record.bytes(), out)
    })
}

pub fn list(record: Record, k: usize, limit: usize, rows: &mut [u8], scores: &mut [u16]) -> Answer {
    unless_refused(&tests_with_limit(record, k, limit), || {
        list::list_of_multiplicities(record.n, k, limit, record.bytes(), rows, scores)
    })
}

/// Whether a record is right and has a reliability for each entry.
fn has_lengths(record: Record, reliabilities: &[u16]) -> bool {
    record.is_right() && reliabilities.len() as u128 == entries(record.n)
}

pub fn check_plan(record: Record, steps: usize, reliabilities: &[u16]) -> Answer {
    let tests = [
        (!n_allowed(record.n)).then_some(Refusal::Sizes),
        (steps > GREATEST_STEPS).then_some(Refusal::Setting),
        (!has_lengths(record, reliabilities)).then_some(Refusal::Length),
    ];
    unless_refused(&tests, || {
        plan::check_plan(record.n, record.stated(steps, reliabilities))
    })
}

pub fn list_of_plan(
    record: Record,
    k: usize,
    limit: usize,
    steps: usize,
    reliabilities: &[u16],
    rows: &mut [u8],
    scores: &mut [u16],
) -> Answer {
    let tests = [
        (!sizes_allowed(record.n, k)).then_some(Refusal::Sizes),
        (limit > GREATEST_LIMIT || steps > GREATEST_STEPS).then_some(Refusal::Setting),
        (!has_lengths(record, reliabilities)).then_some(Refusal::Length),
    ];
    unless_refused(&tests, || {
        let stated = record.stated(steps, reliabilities);
        list::list_of_plan(record.n, k, limit, stated, rows, scores)
    })
}

/// What of a record and a polynomial from outside is refused before room and symbols are looked at,
/// where the limit, if there is one, is allowed.
fn refuse_proposal(
    record: Record,
    k: usize,
    limit_allowed: bool,
    proposal: Proposal,
) -> Result<(), Refusal> {
    refuse(!sizes_allowed(record.n, k), Refusal::Sizes)?;
    let setting_allowed = limit_allowed && !proposal.has_too_many(k);
    refuse(!setting_allowed, Refusal::Setting)?;
    let has_lengths = record.is_right() && proposal.has_right_length(k);
    refuse(!has_lengths, Refusal::Length)
}

pub fn check_proposal(record: Record, k: usize, proposal: Proposal) -> Answer {
    let taken = refuse_proposal(record, k, true, proposal);
    answered(taken.map(|()| proposal::check_proposal(record.n, k, record.bytes(), proposal)))
}

pub fn list_of_proposal(
    record: Record,
    k: usize,
    limit: usize,
    proposal: Proposal,
    rows: &mut [u8],
    scores: &mut [u16],
) -> Answer {
    let taken = refuse_proposal(record, k, limit <= GREATEST_LIMIT, proposal);
    answered(taken.map(|()| {
        list::list_of_proposal(record.n, k, limit, record.bytes(), proposal, rows, scores)
    }))
}
