//! Polynomials in x and y: interpolation and roots.

use crate::lent::{self, Answer};
use crate::limits::{COEFFICIENTS, MONOMIALS};
use crate::refusal::Refusal;
use crate::settings::Sizes;

/// A polynomial in x and y. Monomials x^a y^b are ordered by a + (k-1)b, the weighted degree, then
/// by b, lower first.
#[derive(Clone, Debug, PartialEq, Eq)]
pub struct Polynomial {
    /// The greatest weighted degree that the coefficients reach to.
    pub bound: usize,
    /// Of the monomials of weighted degree at most `bound`, in their order.
    pub coefficients: Vec<u8>,
}

/// The polynomial of a call that is lent room for it.
pub(crate) fn interpolated(
    interpolate: impl FnOnce(&mut [u8]) -> Answer,
) -> Result<Polynomial, Refusal> {
    let mut coefficients = [0; COEFFICIENTS];
    let answer = interpolate(&mut coefficients).accepted()?;
    let written = coefficients.into_iter().take(answer.count.into());
    Ok(Polynomial {
        bound: answer.bound.into(),
        coefficients: written.collect(),
    })
}

/// The one polynomial that is not 0, passes through each (alpha^i, b) as often as the matrix says,
/// has the smallest leading monomial of all that do, and leading coefficient 1.
///
/// Refused with [`Refusal::Sizes`], [`Refusal::Setting`] where the limit is above
/// [`LIMIT`](crate::LIMIT), [`Refusal::Length`] where the matrix has not 16n entries,
/// [`Refusal::Symbol`] where one of them is above [`LEVEL`](crate::LEVEL), [`Refusal::Cost`] where
/// it costs more than the limit.
///
/// ```
/// let mut matrix = [0; 48];
/// for position in 0..3 {
///     matrix[16 * position + 1] = 1;
/// }
/// let polynomial = kv::interpolate(kv::Sizes { n: 3, k: 2 }, kv::LIMIT, &matrix)?;
/// assert_eq!(polynomial.bound, 2);
/// assert_eq!(polynomial.coefficients, [1, 0, 1, 0, 0, 0]); // 1 + y
/// # Ok::<(), kv::Refusal>(())
/// ```
pub fn interpolate(
    Sizes { n, k }: Sizes,
    limit: usize,
    matrix: &[u8],
) -> Result<Polynomial, Refusal> {
    interpolated(|out| lent::interpolate(n, k, limit, matrix, out))
}

/// The messages of k symbols, f being a message's polynomial, for which Q(x, f(x)) is 0
/// identically, smaller symbols first. Q has these coefficients, in the order that [`Polynomial`]
/// says, of the monomials of weighted degree at most `degree`.
///
/// Refused with [`Refusal::Sizes`] unless 2 <= k <= 15, [`Refusal::Setting`] where more than
/// [`MONOMIALS`](crate::MONOMIALS) have such a degree, [`Refusal::Length`] where the coefficients
/// are not as many as they, [`Refusal::Symbol`] where one is above 15, [`Refusal::Zero`] where all
/// are 0.
///
/// ```
/// // x y + y² is 0 where y is 0 and where y is x.
/// let roots = kv::roots(2, 2, &[0, 0, 0, 0, 1, 1])?;
/// assert_eq!(roots, [[0, 0], [0, 1]]);
/// # Ok::<(), kv::Refusal>(())
/// ```
pub fn roots(degree: usize, k: usize, coefficients: &[u8]) -> Result<Vec<Vec<u8>>, Refusal> {
    // k times the whole part of degree / (k-1) is below the number of coefficients.
    let mut messages = [0; MONOMIALS];
    let answer = lent::roots(degree, k, coefficients, &mut messages).accepted()?;
    let written = messages.chunks(k).take(answer.count.into());
    Ok(written.map(<[u8]>::to_vec).collect())
}
