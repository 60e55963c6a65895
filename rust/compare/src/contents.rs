//! The table of faults, continued: what inputs of symbols hold.

use crate::faults::{Input, Made};
use crate::sizes::with_entry;
use kv::Refusal;
use second::bound::{cost, GREATEST_LIMIT, GREATEST_MULTIPLICITY};
use second::field::GREATEST_SYMBOL;
use tags::{random_matrix, Random};

pub const BAD_SYMBOLS: [u8; 3] = [GREATEST_SYMBOL + 1, 128, u8::MAX];
pub const BAD_MULTIPLICITIES: [u8; 2] = [GREATEST_MULTIPLICITY + 1, u8::MAX];
/// Up to this length a second fault is put into every later place.
const SHORT: usize = 16;

pub fn any_multiplicity(random: &mut Random) -> u8 {
    random.between(0, GREATEST_MULTIPLICITY.into()) as u8
}

pub fn bad_multiplicity(random: &mut Random) -> u8 {
    BAD_MULTIPLICITIES[random.between(0, BAD_MULTIPLICITIES.len() - 1)]
}

/// The entries of field arithmetic are called with everything there is.
pub const OPERANDS: Input = Input {
    contents: |_, _| Vec::new(),
    each_place: |_, _| Vec::new(),
};

pub const MESSAGE: Input = Input {
    contents: |made, random| {
        let message = random.bytes(made.length, GREATEST_SYMBOL);
        good_and_bad(made, message, &BAD_SYMBOLS, None, random)
    },
    each_place: |made, random| {
        let length = made.length;
        let good = |random: &mut Random| random.bytes(length, GREATEST_SYMBOL);
        bad_places(made, good, &BAD_SYMBOLS, random)
    },
};

/// A matrix of little cost, and one that costs too much for any limit.
pub const MATRIX: Input = Input {
    contents: |made, random| {
        let little = random.between(0, 1) as u8;
        let cheap = with_one(made.length, little, random);
        let costly = vec![GREATEST_MULTIPLICITY; made.length];
        let of = |matrix: Vec<u8>| {
            let too_dear = (cost(&matrix) > made.call.limit).then_some(Refusal::Cost);
            good_and_bad(made, matrix, &BAD_MULTIPLICITIES, too_dear, random)
        };
        [cheap, costly].map(of).concat()
    },
    each_place: |made, random| {
        let n = made.call.n;
        let good =
            |random: &mut Random| random_matrix(random, n, GREATEST_MULTIPLICITY, GREATEST_LIMIT);
        bad_places(made, good, &BAD_MULTIPLICITIES, random)
    },
};

/// A polynomial other than 0, and 0; one coefficient too great makes both another.
pub const COEFFICIENTS: Input = Input {
    contents: |made, random| {
        let mut some = random.bytes(made.length, GREATEST_SYMBOL);
        some.iter_mut().take(1).for_each(|first| *first = 1);
        let zeros = vec![0; made.length];
        let mut all = Vec::new();
        for coefficients in [some, zeros] {
            let zero = coefficients.iter().all(|&c| c == 0);
            let good = made.with(zero.then_some(Refusal::Zero), |made| {
                made.call.symbols = coefficients.clone();
            });
            all.push(good);
            all.extend(one_bad(made, &coefficients, &BAD_SYMBOLS, random));
        }
        all
    },
    each_place: MESSAGE.each_place,
};

/// Zeros, but for one entry where there is room for it.
fn with_one(length: usize, entry: u8, random: &mut Random) -> Vec<u8> {
    match length {
        0 => Vec::new(),
        _ => with_entry(&vec![0; length], random.between(0, length - 1), entry),
    }
}

/// The content with an entry that is too great, where there is room for it.
fn one_bad(made: &Made, content: &[u8], bads: &[u8], random: &mut Random) -> Option<Made> {
    let place = random.between(0, content.len().checked_sub(1)?);
    let bad = bads[random.between(0, bads.len() - 1)];
    Some(made.with([Refusal::Symbol(place)], |made| {
        made.call.symbols = with_entry(content, place, bad);
    }))
}

/// The content, and the same with an entry that is too great; both have the fault of the whole.
pub fn good_and_bad(
    made: &Made,
    content: Vec<u8>,
    bads: &[u8],
    of_whole: Option<Refusal>,
    random: &mut Random,
) -> Vec<Made> {
    let good = made.with(of_whole, |made| made.call.symbols = content);
    let bad = one_bad(&good, &good.call.symbols, bads, random);
    [good].into_iter().chain(bad).collect()
}

/// All later places of a short input, one of a long one.
fn later_places(place: usize, length: usize, random: &mut Random) -> Vec<usize> {
    match length {
        0..=SHORT => (place + 1..length).collect(),
        _ => vec![random.between(place, length - 1)],
    }
}

pub fn bad_places(
    made: &Made,
    good: impl Fn(&mut Random) -> Vec<u8>,
    bads: &[u8],
    random: &mut Random,
) -> Vec<Made> {
    let mut all = Vec::new();
    for place in 0..made.length {
        for &bad in bads {
            let one = made.with([Refusal::Symbol(place)], |made| {
                made.call.symbols = with_entry(&good(random), place, bad);
            });
            for later in later_places(place, made.length, random) {
                all.push(one.with([Refusal::Symbol(later)], |made| {
                    made.call.symbols[later] = bads[0];
                }));
            }
            all.push(one);
        }
    }
    all
}
