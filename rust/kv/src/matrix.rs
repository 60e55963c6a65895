//! Multiplicity matrices.

use crate::lent::{self, Answer};
use crate::limits::ENTRIES;
use crate::refusal::Refusal;
use crate::settings::Sizes;

/// The matrix of the reliabilities: each entry is the whole part of level times reliability / 4096,
/// whatever those of its position sum to. An erased mark, all zeros, has a column of zeros.
///
/// Refused with [`Refusal::Sizes`] unless 2 <= n <= 15, [`Refusal::Setting`] unless the level is 1
/// to [`LEVEL`](crate::LEVEL), [`Refusal::Length`] where there are not 16n reliabilities,
/// [`Refusal::Column`] where those of a position sum to more than 4096.
///
/// ```
/// let mut reliabilities = [0; 48];
/// reliabilities[3] = 4095;
/// reliabilities[16] = 4096;
/// let matrix = kv::multiplicities(3, 4, &reliabilities)?;
/// assert_eq!((matrix[3], matrix[16]), (3, 4));
/// assert_eq!(matrix[32..], [0; 16]);
/// reliabilities[17] = 1;
/// assert_eq!(
///     kv::multiplicities(3, 4, &reliabilities),
///     Err(kv::Refusal::Column(1))
/// );
/// # Ok::<(), kv::Refusal>(())
/// ```
pub fn multiplicities(n: usize, level: usize, reliabilities: &[u16]) -> Result<Vec<u8>, Refusal> {
    let mut matrix = [0; ENTRIES];
    let answer = lent::multiplicities(n, level, reliabilities, &mut matrix).accepted()?;
    Ok(matrix.into_iter().take(answer.count.into()).collect())
}

/// The cost of a matrix, and the bound that it puts on the score.
#[derive(Clone, Copy, Debug, PartialEq, Eq)]
pub struct CostAndBound {
    /// The sum of m(m+1)/2 over the entries m.
    pub cost: usize,
    /// The smallest D such that more than `cost` pairs (a, b) of numbers from 0 on have
    /// a + (k-1)b <= D.
    pub bound: usize,
}

impl CostAndBound {
    pub(crate) fn of(answer: Answer) -> Result<CostAndBound, Refusal> {
        let answer = answer.accepted()?;
        Ok(CostAndBound {
            cost: answer.cost.into(),
            bound: answer.bound.into(),
        })
    }
}

/// The cost of a matrix, and the bound.
///
/// Refused with [`Refusal::Sizes`], [`Refusal::Length`] where the matrix has not 16n entries,
/// [`Refusal::Symbol`] where one of them is above [`LEVEL`](crate::LEVEL).
///
/// ```
/// let mut matrix = [0; 48];
/// for position in 0..3 {
///     matrix[16 * position + 1] = 1;
/// }
/// let found = kv::cost_and_bound(kv::Sizes { n: 3, k: 2 }, &matrix)?;
/// assert_eq!(found, kv::CostAndBound { cost: 3, bound: 2 });
/// # Ok::<(), kv::Refusal>(())
/// ```
pub fn cost_and_bound(Sizes { n, k }: Sizes, matrix: &[u8]) -> Result<CostAndBound, Refusal> {
    CostAndBound::of(lent::cost_and_bound(n, k, matrix))
}
