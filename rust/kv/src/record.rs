//! A matrix that is edited.

use crate::lent::{self, Answer, Edited, Record};
use crate::limits::{ENTRIES, POSITIONS};
use crate::list::{listed, Listed};
use crate::matrix::CostAndBound;
use crate::polynomial::{interpolated, Polynomial};
use crate::refusal::Refusal;

/// A multiplicity matrix that keeps its cost and each position's total as it is edited.
///
/// A call that is not refused leaves it rightly held: `cost` is the sum of m(m+1)/2 over the
/// entries m, each total the sum of its position's sixteen entries, and the entries from 16n on are
/// 0. Its numbers may be changed by hand too: a call takes it where it is rightly held and no entry
/// is above [`LEVEL`](crate::LEVEL), and otherwise refuses with [`Refusal::Length`] or
/// [`Refusal::Symbol`]. A refused call changes nothing.
///
/// ```
/// use kv::{Matrix, Refusal, Row};
///
/// // Four marks 1, 1, 2, 2, too many of them wrong, and the last one corrected by hand.
/// let mut matrix = Matrix::fresh(4)?;
/// for (position, mark) in [1, 1, 2, 2].into_iter().enumerate() {
///     matrix.set_entry(position, mark, 1)?;
/// }
/// assert!(matrix.list(2, kv::LIMIT)?.rows.is_empty());
/// matrix.clear_column(3)?;
/// matrix.set_entry(3, 1, 1)?;
/// let listed = matrix.list(2, kv::LIMIT)?;
/// assert_eq!(listed.rows, [Row { score: 3, message: vec![1, 0] }]);
///
/// matrix.cost += 1;
/// assert_eq!(matrix.list(2, kv::LIMIT), Err(Refusal::Length));
/// # Ok::<(), kv::Refusal>(())
/// ```
#[derive(Clone, Debug, PartialEq, Eq)]
pub struct Matrix {
    /// The number of positions.
    pub n: usize,
    /// The sum of m(m+1)/2 over the entries m.
    pub cost: usize,
    /// The sum of each position's entries.
    pub totals: [u16; POSITIONS],
    /// Position i, symbol b at 16i + b; 0 from 16n on.
    pub entries: [u8; ENTRIES],
}

/// The matrix of a call that is lent room for totals and entries.
fn made(n: usize, make: impl FnOnce(&mut [u16], &mut [u8]) -> Answer) -> Result<Matrix, Refusal> {
    let (mut totals, mut entries) = ([0; POSITIONS], [0; ENTRIES]);
    let answer = make(&mut totals, &mut entries).accepted()?;
    Ok(Matrix {
        n,
        cost: answer.cost.into(),
        totals,
        entries,
    })
}

impl Matrix {
    /// All zeros.
    ///
    /// Refused with [`Refusal::Sizes`] unless 2 <= n <= 15.
    ///
    /// ```
    /// let matrix = kv::Matrix::fresh(3)?;
    /// assert_eq!((matrix.n, matrix.cost), (3, 0));
    /// assert_eq!(kv::Matrix::fresh(1), Err(kv::Refusal::Sizes));
    /// # Ok::<(), kv::Refusal>(())
    /// ```
    pub fn fresh(n: usize) -> Result<Matrix, Refusal> {
        made(n, |totals, entries| lent::matrix_fresh(n, totals, entries))
    }

    /// The matrix that has these 16n entries.
    ///
    /// Refused with [`Refusal::Sizes`] unless 2 <= n <= 15, [`Refusal::Length`] where there are not
    /// 16n entries, [`Refusal::Symbol`] where one of them is above [`LEVEL`](crate::LEVEL).
    ///
    /// ```
    /// let mut bytes = [0; 48];
    /// (bytes[3], bytes[4]) = (2, 5);
    /// let matrix = kv::Matrix::of_bytes(3, &bytes)?;
    /// assert_eq!((matrix.cost, matrix.totals[0]), (18, 7));
    /// assert_eq!(matrix.entries[..48], bytes);
    /// bytes[20] = 6;
    /// assert_eq!(kv::Matrix::of_bytes(3, &bytes), Err(kv::Refusal::Symbol(20)));
    /// # Ok::<(), kv::Refusal>(())
    /// ```
    pub fn of_bytes(n: usize, matrix: &[u8]) -> Result<Matrix, Refusal> {
        made(n, |totals, entries| {
            lent::matrix_of_bytes(n, matrix, totals, entries)
        })
    }

    fn lent(&self) -> Record<'_> {
        Record {
            n: self.n,
            cost: self.cost,
            totals: &self.totals,
            entries: &self.entries,
        }
    }

    fn edit(&mut self, edit: impl FnOnce(Edited<'_>) -> Answer) -> Result<(), Refusal> {
        let edited = Edited {
            n: self.n,
            cost: self.cost,
            totals: &mut self.totals,
            entries: &mut self.entries,
        };
        self.cost = edit(edited).accepted()?.cost.into();
        Ok(())
    }

    /// Puts an entry in the place of what a position has at a symbol.
    ///
    /// Refused with [`Refusal::Sizes`] where the position is not below n or the symbol above 15,
    /// [`Refusal::Length`] where the matrix is not rightly held, [`Refusal::Symbol`] where one of
    /// its entries, as they are or as they would be, is above [`LEVEL`](crate::LEVEL).
    ///
    /// ```
    /// let mut matrix = kv::Matrix::fresh(3)?;
    /// matrix.set_entry(1, 4, 5)?;
    /// assert_eq!((matrix.cost, matrix.totals[1], matrix.entries[20]), (15, 5, 5));
    /// assert_eq!(matrix.set_entry(1, 4, 6), Err(kv::Refusal::Symbol(20)));
    /// assert_eq!(matrix.set_entry(3, 4, 1), Err(kv::Refusal::Sizes));
    /// assert_eq!(matrix.cost, 15);
    /// # Ok::<(), kv::Refusal>(())
    /// ```
    pub fn set_entry(&mut self, position: usize, symbol: usize, entry: u8) -> Result<(), Refusal> {
        self.edit(|edited| lent::matrix_set_entry(edited, position, symbol, entry))
    }

    /// Puts zeros in the place of all that a position has.
    ///
    /// Refused with [`Refusal::Sizes`] where the position is not below n, [`Refusal::Length`] where
    /// the matrix is not rightly held, [`Refusal::Symbol`] where one of its entries, cleared or
    /// not, is above [`LEVEL`](crate::LEVEL).
    ///
    /// ```
    /// let mut matrix = kv::Matrix::of_bytes(2, &[1; 32])?;
    /// matrix.clear_column(1)?;
    /// assert_eq!((matrix.cost, matrix.totals[0], matrix.totals[1]), (16, 16, 0));
    /// assert_eq!(matrix.clear_column(2), Err(kv::Refusal::Sizes));
    /// # Ok::<(), kv::Refusal>(())
    /// ```
    pub fn clear_column(&mut self, position: usize) -> Result<(), Refusal> {
        self.edit(|edited| lent::matrix_clear_column(edited, position))
    }

    /// Adds another matrix, entry by entry.
    ///
    /// Refused with [`Refusal::Sizes`] where n of both differ, [`Refusal::Length`] where either is
    /// not rightly held, [`Refusal::Symbol`] where an entry of either, or of their sum, is above
    /// [`LEVEL`](crate::LEVEL).
    ///
    /// ```
    /// let mut matrix = kv::Matrix::of_bytes(2, &[1; 32])?;
    /// let other = kv::Matrix::of_bytes(2, &[3; 32])?;
    /// matrix.add(&other)?;
    /// assert_eq!((matrix.cost, matrix.totals[0]), (320, 64));
    /// assert_eq!(matrix.add(&other), Err(kv::Refusal::Symbol(0)));
    /// assert_eq!(matrix.add(&kv::Matrix::fresh(3)?), Err(kv::Refusal::Sizes));
    /// # Ok::<(), kv::Refusal>(())
    /// ```
    pub fn add(&mut self, other: &Matrix) -> Result<(), Refusal> {
        self.edit(|edited| lent::matrix_add(edited, other.lent()))
    }

    /// As [`cost_and_bound`](crate::cost_and_bound) of the first 16n entries.
    ///
    /// Refused with [`Refusal::Sizes`], [`Refusal::Length`] where the matrix is not rightly held,
    /// [`Refusal::Symbol`] where an entry is above [`LEVEL`](crate::LEVEL).
    ///
    /// ```
    /// let matrix = kv::Matrix::of_bytes(2, &[1; 32])?;
    /// let found = matrix.cost_and_bound(2)?;
    /// assert_eq!(found, kv::CostAndBound { cost: 32, bound: 7 });
    /// # Ok::<(), kv::Refusal>(())
    /// ```
    pub fn cost_and_bound(&self, k: usize) -> Result<CostAndBound, Refusal> {
        CostAndBound::of(lent::matrix_cost_and_bound(self.lent(), k))
    }

    /// As [`interpolate`](crate::interpolate) of the first 16n entries.
    ///
    /// Refused with [`Refusal::Sizes`], [`Refusal::Setting`] where the limit is above
    /// [`LIMIT`](crate::LIMIT), [`Refusal::Length`] where the matrix is not rightly held,
    /// [`Refusal::Symbol`] where an entry is above [`LEVEL`](crate::LEVEL), [`Refusal::Cost`] where
    /// the matrix costs more than the limit.
    ///
    /// ```
    /// let matrix = kv::Matrix::fresh(3)?;
    /// let polynomial = matrix.interpolate(2, kv::LIMIT)?;
    /// assert_eq!((polynomial.bound, polynomial.coefficients), (0, vec![1]));
    /// # Ok::<(), kv::Refusal>(())
    /// ```
    pub fn interpolate(&self, k: usize, limit: usize) -> Result<Polynomial, Refusal> {
        interpolated(|out| lent::matrix_interpolate(self.lent(), k, limit, out))
    }

    /// As [`list_of_multiplicities`](crate::list_of_multiplicities) of the first 16n entries.
    ///
    /// Refused as [`interpolate`](Matrix::interpolate) is.
    ///
    /// ```
    /// let mut matrix = kv::Matrix::fresh(3)?;
    /// for position in 0..3 {
    ///     matrix.set_entry(position, 1, 1)?;
    /// }
    /// let listed = matrix.list(2, 3)?;
    /// assert_eq!(listed.rows, [kv::Row { score: 3, message: vec![1, 0] }]);
    /// assert_eq!(matrix.list(2, 2), Err(kv::Refusal::Cost));
    /// # Ok::<(), kv::Refusal>(())
    /// ```
    pub fn list(&self, k: usize, limit: usize) -> Result<Listed, Refusal> {
        listed(k, |rows, scores| {
            lent::matrix_list(self.lent(), k, limit, rows, scores)
        })
    }

    /// As [`check_plan`](crate::check_plan) of the first 16n entries.
    ///
    /// Refused with [`Refusal::Sizes`] unless 2 <= n <= 15, [`Refusal::Setting`] where the steps
    /// are above [`STEPS`](crate::STEPS), [`Refusal::Length`] where there are not 16n reliabilities
    /// or the matrix is not rightly held, [`Refusal::Symbol`] where an entry is above
    /// [`LEVEL`](crate::LEVEL), [`Refusal::Column`] where the reliabilities of a position sum to
    /// more than 4096, [`Refusal::Plan`] where it is another plan.
    ///
    /// ```
    /// let mut reliabilities = [0; 32];
    /// (reliabilities[3], reliabilities[16]) = (3000, 1500);
    /// let plan = kv::plan(2, 3, &reliabilities)?;
    /// let mut matrix = kv::Matrix::of_bytes(2, &plan.entries)?;
    /// assert_eq!(matrix.check_plan(3, &reliabilities), Ok(3));
    /// matrix.set_entry(1, 0, 2)?;
    /// assert_eq!(matrix.check_plan(3, &reliabilities), Err(kv::Refusal::Plan));
    /// # Ok::<(), kv::Refusal>(())
    /// ```
    pub fn check_plan(&self, steps: usize, reliabilities: &[u16]) -> Result<usize, Refusal> {
        let answer = lent::matrix_check_plan(self.lent(), steps, reliabilities).accepted()?;
        Ok(answer.value.into())
    }

    /// As [`list_of_plan`](crate::list_of_plan) of the first 16n entries.
    ///
    /// Refused as [`check_plan`](Matrix::check_plan) is, with [`Refusal::Sizes`] for k too, with
    /// [`Refusal::Setting`] where the limit is above [`LIMIT`](crate::LIMIT), and before
    /// [`Refusal::Plan`] with [`Refusal::Cost`] where the matrix costs more than the limit.
    ///
    /// ```
    /// let mut reliabilities = [0; 48];
    /// for position in 0..3 {
    ///     reliabilities[16 * position + 1] = 4000;
    /// }
    /// let plan = kv::plan(3, 3, &reliabilities)?;
    /// let matrix = kv::Matrix::of_bytes(3, &plan.entries)?;
    /// let listed = matrix.list_of_plan(2, kv::LIMIT, 3, &reliabilities)?;
    /// assert_eq!(listed, matrix.list(2, kv::LIMIT)?);
    /// # Ok::<(), kv::Refusal>(())
    /// ```
    pub fn list_of_plan(
        &self,
        k: usize,
        limit: usize,
        steps: usize,
        reliabilities: &[u16],
    ) -> Result<Listed, Refusal> {
        listed(k, |rows, scores| {
            lent::matrix_list_of_plan(self.lent(), k, limit, steps, reliabilities, rows, scores)
        })
    }

    /// As [`check_proposal`](crate::check_proposal) of the first 16n entries.
    ///
    /// Refused with [`Refusal::Sizes`], [`Refusal::Setting`] where more than
    /// [`MONOMIALS`](crate::MONOMIALS) monomials have such a degree, [`Refusal::Length`] where the
    /// matrix is not rightly held or the coefficients are not as many as the monomials,
    /// [`Refusal::Symbol`] where an entry is above [`LEVEL`](crate::LEVEL) or a coefficient above
    /// 15; the indexes of the coefficients run on after the 16n entries.
    ///
    /// ```
    /// let mut matrix = kv::Matrix::fresh(3)?;
    /// matrix.set_entry(0, 1, 1)?;
    /// assert_eq!(matrix.check_proposal(2, 1, &[1, 0, 1]), Ok(true));
    /// matrix.set_entry(0, 2, 1)?;
    /// assert_eq!(matrix.check_proposal(2, 1, &[1, 0, 1]), Ok(false));
    /// assert_eq!(matrix.check_proposal(2, 1, &[1, 0, 16]), Err(kv::Refusal::Symbol(50)));
    /// # Ok::<(), kv::Refusal>(())
    /// ```
    pub fn check_proposal(
        &self,
        k: usize,
        degree: usize,
        coefficients: &[u8],
    ) -> Result<bool, Refusal> {
        let answer = lent::matrix_check_proposal(self.lent(), k, degree, coefficients);
        Ok(answer.accepted()?.value == 1)
    }

    /// As [`list_of_proposal`](crate::list_of_proposal) of the first 16n entries.
    ///
    /// Refused as [`check_proposal`](Matrix::check_proposal) is, and with [`Refusal::Setting`]
    /// where the limit is above [`LIMIT`](crate::LIMIT), [`Refusal::Cost`] where the matrix costs
    /// more than the limit, [`Refusal::Setting`] where the degree is above its bound,
    /// [`Refusal::Proposal`] where the check answers with a no.
    ///
    /// ```
    /// let mut matrix = kv::Matrix::fresh(3)?;
    /// for position in 0..3 {
    ///     matrix.set_entry(position, 1, 1)?;
    /// }
    /// let listed = matrix.list_of_proposal(2, kv::LIMIT, 1, &[1, 0, 1])?;
    /// assert_eq!(listed, matrix.list(2, kv::LIMIT)?);
    /// let other = matrix.list_of_proposal(2, kv::LIMIT, 1, &[0, 1, 1]);
    /// assert_eq!(other, Err(kv::Refusal::Proposal));
    /// # Ok::<(), kv::Refusal>(())
    /// ```
    pub fn list_of_proposal(
        &self,
        k: usize,
        limit: usize,
        degree: usize,
        coefficients: &[u8],
    ) -> Result<Listed, Refusal> {
        listed(k, |rows, scores| {
            let record = self.lent();
            lent::matrix_list_of_proposal(record, k, limit, degree, coefficients, rows, scores)
        })
    }
}
