//! Symbols by table.

pub const SYMBOLS: usize = 16;

/// α to the powers 0 to 14.
const POWERS: [u8; SYMBOLS - 1] = [1, 2, 4, 8, 3, 6, 12, 11, 5, 10, 7, 14, 15, 13, 9];

const PRODUCTS: [[u8; SYMBOLS]; SYMBOLS] = products();

/// α times a symbol.
#[inline]
pub const fn doubled(a: u8) -> u8 {
    let shifted = a << 1;
    if shifted < SYMBOLS as u8 {
        shifted
    } else {
        shifted ^ 0b10011
    }
}

const fn products() -> [[u8; SYMBOLS]; SYMBOLS] {
    let mut products = [[0; SYMBOLS]; SYMBOLS];
    let mut a = 1;
    while a < SYMBOLS {
        let mut b = 0;
        while b < SYMBOLS {
            let once_less = products[a - a % 2][b];
            let half = products[a / 2][b];
            products[a][b] = if a % 2 == 1 {
                once_less ^ b as u8
            } else {
                doubled(half)
            };
            b += 1;
        }
        a += 1;
    }
    products
}

#[inline]
pub fn product(a: u8, b: u8) -> u8 {
    PRODUCTS[usize::from(a)][usize::from(b)]
}

const INVERSES: [u8; SYMBOLS] = inverses();

const fn inverses() -> [u8; SYMBOLS] {
    let mut inverses = [0; SYMBOLS];
    let mut exponent = 0;
    while exponent < POWERS.len() {
        let opposite = (POWERS.len() - exponent) % POWERS.len();
        inverses[POWERS[exponent] as usize] = POWERS[opposite];
        exponent += 1;
    }
    inverses
}

/// 0 for 0.
#[inline]
pub fn inverse(a: u8) -> u8 {
    INVERSES[usize::from(a)]
}

#[inline]
pub fn point(position: usize) -> u8 {
    POWERS[position]
}
