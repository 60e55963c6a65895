//! Polynomials from outside.

use crate::lent;
use crate::refusal::Refusal;
use crate::settings::Sizes;

/// Whether a polynomial from outside is not 0 and passes through each (alpha^i, b) as often as the
/// matrix says. It has these coefficients, in the order that [`Polynomial`](crate::Polynomial)
/// says, of the monomials of weighted degree at most `degree`. The matrix may cost anything.
///
/// Refused with [`Refusal::Sizes`], [`Refusal::Setting`] where more than
/// [`MONOMIALS`](crate::MONOMIALS) have such a degree, [`Refusal::Length`] where the matrix has not
/// 16n entries or the coefficients are not as many as the monomials, [`Refusal::Symbol`] where an
/// entry is above [`LEVEL`](crate::LEVEL) or a coefficient above 15; the indexes of the
/// coefficients run on after the matrix's last.
///
/// ```
/// use kv::{check_proposal, Refusal, Sizes};
///
/// let sizes = Sizes { n: 3, k: 2 };
/// let mut matrix = [0; 48];
/// for position in 0..3 {
///     matrix[16 * position + 1] = 1;
/// }
/// // 1 + y is 0 wherever y is 1; x + y is so only where x is 1, too.
/// assert_eq!(check_proposal(sizes, 1, &matrix, &[1, 0, 1]), Ok(true));
/// assert_eq!(check_proposal(sizes, 1, &matrix, &[0, 1, 1]), Ok(false));
/// assert_eq!(check_proposal(sizes, 1, &matrix, &[0, 0, 0]), Ok(false));
/// assert_eq!(check_proposal(sizes, 1, &matrix, &[1, 16, 1]), Err(Refusal::Symbol(49)));
///
/// // (1 + y)², which is 1 + y², passes twice.
/// matrix[1] = 2;
/// assert_eq!(check_proposal(sizes, 2, &matrix, &[1, 0, 0, 0, 0, 1]), Ok(true));
/// assert_eq!(check_proposal(sizes, 2, &matrix, &[1, 0, 1, 0, 0, 0]), Ok(false));
/// ```
pub fn check_proposal(
    Sizes { n, k }: Sizes,
    degree: usize,
    matrix: &[u8],
    coefficients: &[u8],
) -> Result<bool, Refusal> {
    let answer = lent::check_proposal(n, k, degree, matrix, coefficients).accepted()?;
    Ok(answer.value == 1)
}
