//! Sizes, messages and codewords.

use crate::field::{plus, power, times, ALPHA, GREATEST_SYMBOL, SYMBOLS};
use crate::refusal::{symbol_above, unless_refused, Refusal};
use crate::Answer;

pub const LEAST_SIZE: usize = 2;
pub const MOST_POSITIONS: usize = 15;

pub fn sizes_allowed(n: usize, k: usize) -> bool {
    LEAST_SIZE <= k && k <= n && n <= MOST_POSITIONS
}

/// Of an entry that has no k.
pub fn n_allowed(n: usize) -> bool {
    (LEAST_SIZE..=MOST_POSITIONS).contains(&n)
}

/// f(x), the sum of f_j times x to the j, from the highest power down.
pub fn value_at(message: &[u8], x: u8) -> u8 {
    let from_the_top = message.iter().rev();
    from_the_top.fold(0, |value, &f| plus(times(value, x), f))
}

/// x_i, at which the codeword has the symbol of position i.
pub fn x_of(position: usize) -> u8 {
    power(ALPHA, position)
}

/// Every message of k symbols, ordered by f_0, then f_1 and so on.
pub fn every_message(k: usize) -> impl Iterator<Item = Vec<u8>> {
    let symbol = move |number: usize, j: usize| number / SYMBOLS.pow((k - 1 - j) as u32) % SYMBOLS;
    let message = move |number| (0..k).map(|j| symbol(number, j) as u8).collect();
    (0..SYMBOLS.pow(k as u32)).map(message)
}

pub fn encode(n: usize, k: usize, message: &[u8], out: &mut [u8]) -> Answer {
    let tests = [
        (!sizes_allowed(n, k)).then_some(Refusal::Sizes),
        (message.len() != k).then_some(Refusal::Length),
        (out.len() < n).then_some(Refusal::Room),
        symbol_above(GREATEST_SYMBOL, message),
    ];
    unless_refused(&tests, || {
        for i in 0..n {
            out[i] = value_at(message, x_of(i));
        }
        Answer {
            count: n as u16,
            ..Answer::default()
        }
    })
}
