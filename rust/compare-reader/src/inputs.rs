//! What the reader is fed.

use second::bound::{cost, GREATEST_LIMIT};
use second::code::{LEAST_SIZE, MOST_POSITIONS};
use second::field::SYMBOLS;
use second::weights::{GREATEST_LEVEL, WHOLE};
use tags::Random;
use tags::{
    close_codewords, matrix_of, random_codeword, shared_weights, soft_weights, with_erased_marks,
    with_wrong_marks,
};

const SEED: u64 = 8;
const WORN_TAGS: usize = 120;
const WORDS_TOGETHER: usize = 60;
const LIMIT: u8 = GREATEST_LIMIT as u8;
const SIZES: [u8; 8] = [0, 1, 2, 3, 15, 16, 18, u8::MAX];
const LEVELS: [u8; 6] = [0, 1, 4, 5, 6, u8::MAX];
const LIMITS: [u8; 5] = [0, 1, LIMIT, LIMIT + 1, u8::MAX];

fn input(header: [u8; 4], weights: &[u16]) -> Vec<u8> {
    let numbers = weights.iter().flat_map(|weight| weight.to_le_bytes());
    header.into_iter().chain(numbers).collect()
}

/// All of the weight at one symbol, in each of n positions.
fn plain_weights(n: usize) -> Vec<u16> {
    let mut column = [0; SYMBOLS];
    column[1] = WHOLE as u16;
    column.repeat(n)
}

pub fn document_example() -> Vec<u8> {
    input([3, 2, 1, LIMIT], &plain_weights(3))
}

/// Every beginning of an input that is shorter than its header, and headers alone.
fn short_inputs() -> Vec<Vec<u8>> {
    let example = document_example();
    let beginnings = (0..=4).map(|length| example[..length].to_vec());
    let bad = (0..=4).map(|length| vec![u8::MAX; length]);
    beginnings.chain(bad).collect()
}

/// Sizes and settings at the edges, with as many numbers as n says, good ones or bad ones.
fn headers() -> Vec<Vec<u8>> {
    let mut inputs = Vec::new();
    for n in SIZES {
        let good = plain_weights(n.into());
        let bad = vec![u16::MAX; good.len()];
        for k in SIZES {
            inputs.push(input([n, k, 4, LIMIT], &good));
            inputs.push(input([n, k, 0, LIMIT + 1], &bad));
        }
    }
    for level in LEVELS {
        for limit in LIMITS {
            inputs.push(input([4, 2, level, limit], &plain_weights(4)));
            inputs.push(input([4, 2, level, limit], &[u16::MAX; SYMBOLS * 4]));
        }
    }
    inputs
}

/// Lengths beside the right one, odd and even, and great ones that look like it.
fn lengths() -> Vec<Vec<u8>> {
    let longest = input([15, 7, 4, LIMIT], &plain_weights(MOST_POSITIONS));
    let around = |right: Vec<u8>| {
        let beside = right.len() - 3..=right.len() + 3;
        let great = [8, 9, 16, 17].map(|bits| right.len() + (1 << bits));
        let lengths = beside.chain(great).chain([4, 5, 6, right.len() + SYMBOLS]);
        let of_length = move |length| {
            let mut bytes = right.clone();
            bytes.resize(length, 0);
            bytes
        };
        lengths.map(of_length)
    };
    [document_example(), longest]
        .into_iter()
        .flat_map(around)
        .collect()
}

/// At each position a column of less than the whole, which is taken, or of more, which is not; with
/// the latter the last column, too, is one too great.
fn columns() -> Vec<Vec<u8>> {
    let n = MOST_POSITIONS;
    let with = |place: usize, weight: u16, last: u16| {
        let mut weights = plain_weights(n);
        weights[SYMBOLS * n - 1] = last;
        weights[place] = weight;
        input([n as u8, 7, 4, LIMIT], &weights)
    };
    let position = |position: usize| {
        let (other, own) = (SYMBOLS * position, SYMBOLS * position + 1);
        let less = [0, 1, WHOLE as u16 - 3, WHOLE as u16 - 1].map(|weight| with(own, weight, 0));
        let more = [1, WHOLE as u16, u16::MAX].map(|weight| with(other, weight, 1));
        less.into_iter().chain(more)
    };
    (0..n).flat_map(position).collect()
}

/// Worn tags, some marks erased, with limits from just below the cost on, and tags that several codewords share.
fn tags() -> Vec<Vec<u8>> {
    let mut random = Random::new(SEED);
    let mut inputs = Vec::new();
    for tag in 0..WORN_TAGS + WORDS_TOGETHER {
        let n = random.between(LEAST_SIZE, MOST_POSITIONS);
        let k = random.between(LEAST_SIZE, n);
        let level = random.between(1, GREATEST_LEVEL);
        let weights = if tag < WORN_TAGS {
            let right = random_codeword(&mut random, n, k);
            let wrong = random.between(0, (n - k) / 2);
            let word = with_wrong_marks(&mut random, &right, wrong);
            let soft = soft_weights(&mut random, &word, WHOLE as usize * 3 / 4);
            let erased = random.between(0, (n - k) / 2);
            with_erased_marks(&mut random, &soft, erased)
        } else {
            shared_weights(&close_codewords(&mut random, n, k, 2))
        };
        let cost = cost(&matrix_of(&weights, level));
        let limit = random.between(cost, GREATEST_LIMIT);
        for limit in [limit, cost.saturating_sub(tag % 2)] {
            let header = [n, k, level, limit].map(|number| number as u8);
            inputs.push(input(header, &weights));
        }
    }
    inputs
}

pub fn all() -> Vec<Vec<u8>> {
    [short_inputs(), headers(), lengths(), columns(), tags()].concat()
}
