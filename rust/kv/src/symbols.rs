//! Symbols, messages and codewords.

use crate::lent::{self, Answer};
use crate::limits::POSITIONS;
use crate::refusal::Refusal;
use crate::settings::Sizes;

fn symbol(answer: Answer) -> Result<u8, Refusal> {
    let answer = answer.accepted()?;
    Ok(answer.value as u8)
}

/// a + b.
///
/// Refused with [`Refusal::Symbol`] 0 where a is above 15, 1 where b is.
///
/// ```
/// assert_eq!(kv::sum(3, 5), Ok(6));
/// ```
pub fn sum(a: u8, b: u8) -> Result<u8, Refusal> {
    symbol(lent::sum(a, b))
}

/// a times b.
///
/// Refused with [`Refusal::Symbol`] 0 where a is above 15, 1 where b is.
///
/// ```
/// assert_eq!(kv::product(7, 7), Ok(6));
/// ```
pub fn product(a: u8, b: u8) -> Result<u8, Refusal> {
    symbol(lent::product(a, b))
}

/// The symbol whose product with a is 1.
///
/// Refused with [`Refusal::Symbol`] where a is above 15, [`Refusal::Zero`] where a is 0.
///
/// ```
/// assert_eq!(kv::inverse(2), Ok(9));
/// assert_eq!(kv::inverse(0), Err(kv::Refusal::Zero));
/// ```
pub fn inverse(a: u8) -> Result<u8, Refusal> {
    symbol(lent::inverse(a))
}

/// The codeword: its symbol i is the message's polynomial at alpha^i, the message's symbol j being
/// the coefficient of x^j.
///
/// Refused with [`Refusal::Sizes`], [`Refusal::Length`] where the message has not k symbols,
/// [`Refusal::Symbol`] where one of them is above 15.
///
/// ```
/// let sizes = kv::Sizes { n: 3, k: 2 };
/// assert_eq!(kv::encode(sizes, &[0, 1]), Ok(vec![1, 2, 4]));
/// ```
pub fn encode(Sizes { n, k }: Sizes, message: &[u8]) -> Result<Vec<u8>, Refusal> {
    let mut codeword = [0; POSITIONS];
    let answer = lent::encode(n, k, message, &mut codeword).accepted()?;
    Ok(codeword.into_iter().take(answer.count.into()).collect())
}
