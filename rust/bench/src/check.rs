//! The Rust programs against the second program.

use crate::baseline;
use crate::matrices::{worn_tag, worn_weights, wrong_word};
use crate::programs::{Polynomial, PACKED, PLAIN, SECOND};
use second::bound::{GREATEST_LIMIT, GREATEST_MULTIPLICITY};
use second::code::{LEAST_SIZE, MOST_POSITIONS};
use second::plan::{ruled, GREATEST_STEPS};
use second::proposal::Proposal;
use second::weights::{GREATEST_LEVEL, LEAST_LEVEL};
use tags::{random_matrix, within_cost, Random};

const SEED: u64 = 9;
const MATRICES: usize = 2;

/// The roots of a polynomial that was interpolated, by the plain Rust and the second program.
fn compare_roots(k: usize, matrix: &[u8], polynomial: &Polynomial) {
    let coefficients = &polynomial.coefficients[..polynomial.count];
    let room = k * (polynomial.bound / (k - 1));
    let (mut roots, mut plain) = (vec![0; room], vec![0; room]);
    let answer = second::roots::roots(polynomial.bound, k, coefficients, &mut roots);
    let count = baseline::roots(polynomial.bound, k, coefficients, &mut plain);
    let expected = (usize::from(answer.count), roots);
    PLAIN.found("roots", matrix, &expected, &(count, plain));
}

/// Whether a polynomial that was interpolated is a yes, by the plain Rust and the second program:
/// as it is, and with one coefficient off.
fn compare_checks(k: usize, matrix: &[u8], polynomial: &Polynomial) {
    let mut coefficients = polynomial.coefficients[..polynomial.count].to_vec();
    for added in [0, 1] {
        coefficients[polynomial.count / 2] ^= added;
        let proposal = Proposal {
            degree: polynomial.bound,
            coefficients: &coefficients,
        };
        let expected = proposal.is_yes(k, matrix);
        let found = baseline::passes(k, polynomial.bound, matrix, &coefficients);
        PLAIN.found("check", matrix, &expected, &found);
    }
}

fn compare(k: usize, matrix: &[u8]) {
    let (polynomial, _) = SECOND.agrees_with(&[PLAIN, PACKED], k, matrix);
    compare_roots(k, matrix, &polynomial);
    compare_checks(k, matrix, &polynomial);
}

/// Worn tags and hard words of every level, and entries anywhere up to a random cost.
fn matrices(random: &mut Random, n: usize, k: usize) -> Vec<Vec<u8>> {
    let mut matrices = Vec::new();
    for level in LEAST_LEVEL..=GREATEST_LEVEL {
        let wrong = random.between(0, n - k);
        matrices.push(worn_tag(random, n, k, level, wrong));
        let word = wrong_word(random, n, k, level, wrong);
        matrices.push(within_cost(random, word, GREATEST_LIMIT));
        let most = random.between(0, GREATEST_LIMIT);
        matrices.push(random_matrix(random, n, GREATEST_MULTIPLICITY, most));
    }
    matrices
}

/// The plans of a worn tag, of every number of steps, by the plain Rust and the second program.
/// Answers how many there are.
fn compare_plans(random: &mut Random, n: usize, k: usize) -> usize {
    let wrong = random.between(0, n - k);
    let reliabilities = worn_weights(random, n, k, wrong);
    for steps in 0..=GREATEST_STEPS {
        let mut plan = vec![0; reliabilities.len()];
        let done = baseline::plan(steps, &reliabilities, &mut plan);
        let ruled = ruled(steps, &reliabilities);
        let expected = (ruled.steps, ruled.entries);
        PLAIN.found("plan", &expected.1, &expected, &(done, plan));
    }
    GREATEST_STEPS + 1
}

pub fn check() {
    let mut random = Random::new(SEED);
    let (mut cases, mut plans) = (0, 0);
    for n in LEAST_SIZE..=MOST_POSITIONS {
        for k in LEAST_SIZE..=n {
            for _ in 0..MATRICES {
                for matrix in matrices(&mut random, n, k) {
                    compare(k, &matrix);
                    cases += 1;
                }
                plans += compare_plans(&mut random, n, k);
            }
        }
    }
    println!("checked: {cases} matrices and {plans} plans, both Rust programs and the second program equal");
}
