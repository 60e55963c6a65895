//! Where a list's time goes.

use crate::baseline;
use crate::programs::{Polynomial, PROVED};
use crate::turns::{in_turns, medians, timed};
use crate::workloads::K;
use second::interpolation::ROOM_FOR_COEFFICIENTS;
use second::list::MOST_ROWS;
use std::hint::black_box;
use std::time::{Duration, Instant};

/// The matrices whose parts are timed together. The systems of many more are memory that goes back
/// and is asked for again each turn, which would count as conditions.
const TURN: usize = 4;

fn proved_roots(polynomial: &Polynomial) -> [u8; baseline::ROOM_FOR_ROOTS] {
    let mut roots = [0; baseline::ROOM_FOR_ROOTS];
    let coefficients = &polynomial.coefficients[..polynomial.count];
    let answer = kv::lent::roots(polynomial.bound, K, coefficients, &mut roots);
    assert_eq!(answer.number, 0, "the roots are not refused");
    roots
}

/// The proved library's times by its public entries: list, interpolation, and the roots of the
/// polynomial that was interpolated.
pub fn proved_parts(matrices: &[Vec<u8>]) -> [f64; 3] {
    let with_polynomial = |matrix: &Vec<u8>| (matrix.clone(), PROVED.polynomial(K, matrix));
    let inputs: Vec<(Vec<u8>, Polynomial)> = matrices.iter().map(with_polynomial).collect();
    in_turns(
        &inputs,
        [
            &|turn| timed(turn, |(matrix, _)| PROVED.list(K, matrix)),
            &|turn| timed(turn, |(matrix, _)| PROVED.polynomial(K, matrix)),
            &|turn| timed(turn, |(_, polynomial)| proved_roots(polynomial)),
        ],
    )
}

/// A list of the plain Rust, as far as it has come.
struct Begun {
    bound: usize,
    coefficients: [u8; ROOM_FOR_COEFFICIENTS],
    count: usize,
    roots: [u8; baseline::ROOM_FOR_ROOTS],
    roots_count: usize,
}

/// Does one part for each, and answers the time.
fn part<Done, Next>(before: Vec<Done>, go_on: impl FnMut(Done) -> Next) -> (Vec<Next>, Duration) {
    let start = Instant::now();
    let after: Vec<Next> = black_box(before.into_iter().map(go_on).collect());
    (after, start.elapsed())
}

fn eliminated(system: baseline::System) -> Begun {
    let (bound, count) = (system.bound, system.count);
    let mut coefficients = [0; ROOM_FOR_COEFFICIENTS];
    baseline::eliminate(system, &mut coefficients);
    Begun {
        bound,
        coefficients,
        count,
        roots: [0; baseline::ROOM_FOR_ROOTS],
        roots_count: 0,
    }
}

fn with_roots(mut begun: Begun) -> Begun {
    let coefficients = &begun.coefficients[..begun.count];
    begun.roots_count = baseline::roots(begun.bound, K, coefficients, &mut begun.roots);
    begun
}

fn ranked(matrix: &[u8], begun: Begun) -> usize {
    let (mut rows, mut scores) = ([0; MOST_ROWS * K], [0; MOST_ROWS]);
    let found = &begun.roots[..K * begun.roots_count];
    baseline::rank(K, begun.bound, matrix, found, &mut rows, &mut scores)
}

/// The times of conditions, elimination, roots and ranking.
fn plain_turn(turn: &[Vec<u8>]) -> [Duration; 4] {
    let matrices: Vec<&[u8]> = turn.iter().map(Vec::as_slice).collect();
    let (systems, conditions) = part(matrices, |matrix| baseline::system(K, matrix));
    let (begun, elimination) = part(systems, eliminated);
    let (begun, roots) = part(begun, with_roots);
    let mut matrices = turn.iter();
    let (_, ranking) = part(begun, |begun| {
        ranked(matrices.next().expect("a matrix for each"), begun)
    });
    [conditions, elimination, roots, ranking]
}

/// The plain Rust's times of conditions, elimination, roots and ranking.
pub fn plain_parts(matrices: &[Vec<u8>]) -> [f64; 4] {
    medians(matrices, TURN, |turn, _| plain_turn(turn))
}
