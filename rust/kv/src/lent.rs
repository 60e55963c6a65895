//! The entries with the memory that the caller lends, and their answers as bare numbers.
//!
//! For a caller that has no allocator, or wants to see what a call leaves in lent memory: a refused
//! call changes none of it, and one that is accepted changes only what it says it writes. Whether a
//! call is refused says [`Answer::refusal`], and of the counter's calls [`Judgement::refusal`].
//!
//! ```
//! let mut codeword = [255; 4];
//! let answer = kv::lent::encode(3, 2, &[0, 1], &mut codeword);
//! assert_eq!((answer.number, answer.count), (0, 3));
//! assert_eq!(codeword, [1, 2, 4, 255]);
//!
//! let answer = kv::lent::encode(3, 2, &[0, 16], &mut codeword);
//! assert_eq!((answer.number, answer.place), (5, 1));
//! assert_eq!(codeword, [1, 2, 4, 255]);
//! ```

use crate::archive;
pub use crate::archive::{
    check_plan, check_proposal, cost_and_bound, encode, interpolate, inverse, judge,
    list_of_multiplicities, list_of_plan, list_of_proposal, list_of_reliabilities, matrix_fresh,
    matrix_of_bytes, multiplicities, open, plan, product, roots, sum, Answer, Judgement,
};
use crate::photograph::Photograph;
use crate::refusal::Refusal;

impl Answer {
    /// The refusal, `None` where the call is not refused.
    pub fn refusal(self) -> Option<Refusal> {
        Refusal::of(self.number, self.place.into())
    }

    pub(crate) fn accepted(self) -> Result<Answer, Refusal> {
        self.refusal().map_or(Ok(self), Err)
    }
}

impl Judgement {
    /// The refusal, `None` where the call is not refused.
    pub fn refusal(self) -> Option<Refusal> {
        Refusal::of(self.number, self.place as usize)
    }

    pub(crate) fn accepted(self) -> Result<Judgement, Refusal> {
        self.refusal().map_or(Ok(self), Err)
    }
}

/// An entry that takes two lists.
type OfBoth =
    fn(usize, usize, usize, &[u8], &[u16], usize, usize, usize, &[u8], &[u16], usize) -> Judgement;

fn of_both(entry: OfBoth, a: Photograph<'_>, b: Photograph<'_>, lead: usize) -> Judgement {
    entry(
        a.sizes.n, a.sizes.k, a.level, a.rows, a.scores, b.sizes.n, b.sizes.k, b.level, b.rows,
        b.scores, lead,
    )
}

/// `value` of the verdict on the lists of two photographs.
pub fn judge_both(first: Photograph<'_>, second: Photograph<'_>, lead: usize) -> Judgement {
    of_both(archive::judge_both, first, second, lead)
}

/// `value` of the list and `count` k where [`judge_both`] answers that the counter opens: the rows
/// of the first list begin with the row where it is 1, those of the second where it is 2.
pub fn open_both(first: Photograph<'_>, second: Photograph<'_>, lead: usize) -> Judgement {
    of_both(archive::open_both, first, second, lead)
}

/// A matrix record in parts, whatever they hold. [`Matrix`](crate::Matrix) says what they should.
#[derive(Clone, Copy, Debug)]
pub struct Record<'a> {
    /// The number of positions.
    pub n: usize,
    /// Of all entries.
    pub cost: usize,
    /// The sum of each position's entries.
    pub totals: &'a [u16],
    /// Position i, symbol b at 16i + b.
    pub entries: &'a [u8],
}

/// A [`Record`] that a call changes in place: `totals` and `entries`. The record's cost afterwards is
/// the answer's `cost`.
#[derive(Debug)]
pub struct Edited<'a> {
    /// The number of positions.
    pub n: usize,
    /// Of all entries.
    pub cost: usize,
    /// The sum of each position's entries.
    pub totals: &'a mut [u16],
    /// Position i, symbol b at 16i + b.
    pub entries: &'a mut [u8],
}

/// `cost` of the record that has the entry at this position and symbol.
pub fn matrix_set_entry(a: Edited<'_>, position: usize, symbol: usize, entry: u8) -> Answer {
    archive::matrix_set_entry(a.n, a.cost, a.totals, a.entries, position, symbol, entry)
}

/// `cost` of the record that has zeros at this position.
pub fn matrix_clear_column(a: Edited<'_>, position: usize) -> Answer {
    archive::matrix_clear_column(a.n, a.cost, a.totals, a.entries, position)
}

/// `cost` of the record that has the other one added to it, entry by entry.
pub fn matrix_add(a: Edited<'_>, b: Record<'_>) -> Answer {
    archive::matrix_add(
        a.n, a.cost, a.totals, a.entries, b.n, b.cost, b.totals, b.entries,
    )
}

/// `cost` and `bound` of the record.
pub fn matrix_cost_and_bound(a: Record<'_>, k: usize) -> Answer {
    archive::matrix_cost_and_bound(a.n, a.cost, a.totals, a.entries, k)
}

/// As [`interpolate`] of the record's first 16n entries.
pub fn matrix_interpolate(a: Record<'_>, k: usize, limit: usize, out: &mut [u8]) -> Answer {
    archive::matrix_interpolate(a.n, a.cost, a.totals, a.entries, k, limit, out)
}

/// As [`list_of_multiplicities`] of the record's first 16n entries.
pub fn matrix_list(
    a: Record<'_>,
    k: usize,
    limit: usize,
    rows: &mut [u8],
    scores: &mut [u16],
) -> Answer {
    archive::matrix_list(a.n, a.cost, a.totals, a.entries, k, limit, rows, scores)
}

/// As [`check_plan`] of the record's first 16n entries.
pub fn matrix_check_plan(a: Record<'_>, steps: usize, reliabilities: &[u16]) -> Answer {
    archive::matrix_check_plan(a.n, a.cost, a.totals, a.entries, steps, reliabilities)
}

/// As [`list_of_plan`] of the record's first 16n entries.
pub fn matrix_list_of_plan(
    a: Record<'_>,
    k: usize,
    limit: usize,
    steps: usize,
    reliabilities: &[u16],
    rows: &mut [u8],
    scores: &mut [u16],
) -> Answer {
    archive::matrix_list_of_plan(
        a.n,
        a.cost,
        a.totals,
        a.entries,
        k,
        limit,
        steps,
        reliabilities,
        rows,
        scores,
    )
}

/// As [`check_proposal`] of the record's first 16n entries.
pub fn matrix_check_proposal(
    a: Record<'_>,
    k: usize,
    degree: usize,
    coefficients: &[u8],
) -> Answer {
    archive::matrix_check_proposal(a.n, a.cost, a.totals, a.entries, k, degree, coefficients)
}

/// As [`list_of_proposal`] of the record's first 16n entries.
pub fn matrix_list_of_proposal(
    a: Record<'_>,
    k: usize,
    limit: usize,
    degree: usize,
    coefficients: &[u8],
    rows: &mut [u8],
    scores: &mut [u16],
) -> Answer {
    archive::matrix_list_of_proposal(
        a.n,
        a.cost,
        a.totals,
        a.entries,
        k,
        limit,
        degree,
        coefficients,
        rows,
        scores,
    )
}
