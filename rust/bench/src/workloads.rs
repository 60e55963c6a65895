//! The matrices that are timed.

use crate::matrices::{worn_tag, worn_weights, wrong_word};
use second::bound::{bound, cost_of_entry, monomials};
use second::code::x_of;
use second::field::{plus, times, SYMBOLS};
use second::weights::{GREATEST_LEVEL, WHOLE};
use tags::Random;

pub const N: usize = 15;
pub const K: usize = 7;
const SEED: u64 = 10;
const TAGS: usize = 1000;
const HARD_WORDS: usize = 500;
const LEAST_WRONG: usize = 3;
const MOST_WRONG: usize = 6;

pub struct Workload {
    pub name: &'static str,
    pub matrices: Vec<Vec<u8>>,
}

/// What is made of each tag, given how many of its marks are wrong.
fn of_tags<T>(make: impl Fn(&mut Random, usize) -> T) -> Vec<T> {
    let mut random = Random::new(SEED);
    let mut tag = || {
        let wrong = random.between(LEAST_WRONG, MOST_WRONG);
        make(&mut random, wrong)
    };
    (0..TAGS).map(|_| tag()).collect()
}

fn worn_tags(name: &'static str, level: usize) -> Workload {
    let matrices = of_tags(|random, wrong| worn_tag(random, N, K, level, wrong));
    Workload { name, matrices }
}

/// The most wrong marks of a hard word that is listed: each other mark scores the level, and they
/// score more than the bound.
fn most_wrong(level: usize) -> usize {
    let bound = bound(K - 1, N * cost_of_entry(level as u8));
    N - (bound / level + 1)
}

fn hard_words(name: &'static str, level: usize) -> Workload {
    let mut random = Random::new(SEED);
    let wrong = most_wrong(level);
    let mut matrix = || wrong_word(&mut random, N, K, level, wrong);
    let matrices = (0..HARD_WORDS).map(|_| matrix()).collect();
    Workload { name, matrices }
}

/// Reliabilities that are planned with: of worn tags, and of words whose marks are all clear.
pub fn weights() -> [(&'static str, Vec<Vec<u16>>); 2] {
    let clear = |&entry: &u8| u16::from(entry > 0) * WHOLE as u16;
    let words = hard_words("hard words", GREATEST_LEVEL)
        .matrices
        .into_iter();
    [
        (
            "worn tags",
            of_tags(|random, wrong| worn_weights(random, N, K, wrong)),
        ),
        (
            "hard words",
            words.map(|word| word.iter().map(clear).collect()).collect(),
        ),
    ]
}

pub fn workloads() -> [Workload; 5] {
    [
        worn_tags("worn tags, L 1", 1),
        worn_tags("worn tags, L 4", 4),
        worn_tags("worn tags, L 5", 5),
        hard_words("hard words, L 4", 4),
        hard_words("hard words, L 5", 5),
    ]
}

/// A matrix, and a polynomial that is proposed for it.
#[derive(Clone)]
pub struct Proposed {
    pub k: usize,
    pub degree: usize,
    pub matrix: Vec<u8>,
    pub coefficients: Vec<u8>,
}

/// The product of x plus the x of each of the first positions, so many times, by the powers of x.
fn lines(positions: usize, often: usize) -> Vec<u8> {
    let points = (0..positions).flat_map(|position| vec![x_of(position); often]);
    points.fold(vec![1], |product, x| {
        let above = [&[0], product.as_slice()].concat();
        let here = [product.as_slice(), &[0]].concat();
        let pairs = above.iter().zip(&here);
        pairs.map(|(&a, &b)| plus(a, times(x, b))).collect()
    })
}

/// For a matrix of one number throughout: such a product, which passes at its positions.
fn lines_for_all(k: usize, entry: u8, positions: usize) -> Proposed {
    let in_x = lines(positions, entry.into());
    let (v, degree) = (k - 1, in_x.len() - 1);
    let mut coefficients = vec![0; monomials(v, degree)];
    for (a, c) in in_x.into_iter().enumerate() {
        let before = if a > 0 { monomials(v, a - 1) } else { 0 };
        coefficients[before] = c;
    }
    Proposed {
        k,
        degree,
        matrix: vec![entry; SYMBOLS * N],
        coefficients,
    }
}

/// What is tried of such matrices, and how many conditions that is: the greatest matrix, with all
/// that it asks for and with as many positions as the degree allows; and others with all of it.
pub fn proposed_for_all() -> [(&'static str, usize, Proposed); 4] {
    [
        ("5, k 15, D 75, a yes", 3600, lines_for_all(15, 5, N)),
        (
            "5, k 7, D 50, a no at mark 10",
            2401,
            lines_for_all(K, 5, 10),
        ),
        ("3, k 7, D 45, a yes", 1440, lines_for_all(K, 3, N)),
        ("1, k 2, D 15, a yes", 240, lines_for_all(2, 1, N)),
    ]
}
