//! Symbols by table.

pub const SYMBOLS: usize = 16;
/// α to this power is 1.
pub const ORDER: usize = 15;

/// α to the powers 0 to 14.
pub const POWERS: [u8; ORDER] = [1, 2, 4, 8, 3, 6, 12, 11, 5, 10, 7, 14, 15, 13, 9];

const fn exponent(symbol: usize) -> usize {
    let mut exponent = 0;
    while POWERS[exponent] as usize != symbol {
        exponent += 1;
    }
    exponent
}

pub const fn power(symbol: usize, exponent_of_power: usize) -> usize {
    if exponent_of_power == 0 {
        1
    } else if symbol == 0 {
        0
    } else {
        POWERS[exponent(symbol) * exponent_of_power % ORDER] as usize
    }
}

pub const fn product(a: usize, b: usize) -> usize {
    if a == 0 || b == 0 {
        0
    } else {
        POWERS[(exponent(a) + exponent(b)) % ORDER] as usize
    }
}

const fn quotients() -> [[u8; SYMBOLS]; SYMBOLS] {
    let mut quotients = [[0; SYMBOLS]; SYMBOLS];
    let mut a = 1;
    while a < SYMBOLS {
        let mut b = 1;
        while b < SYMBOLS {
            quotients[a][b] = product(a, power(b, ORDER - 1)) as u8;
            b += 1;
        }
        a += 1;
    }
    quotients
}

const QUOTIENTS: [[u8; SYMBOLS]; SYMBOLS] = quotients();
const SQUARES: [u8; SYMBOLS] = [0, 1, 4, 5, 3, 2, 7, 6, 12, 13, 8, 9, 15, 14, 11, 10];

/// a over b; 0 where b is 0.
#[inline]
pub fn quotient(a: usize, b: usize) -> usize {
    QUOTIENTS[a][b].into()
}

#[inline]
pub fn square(a: usize) -> usize {
    SQUARES[a].into()
}
