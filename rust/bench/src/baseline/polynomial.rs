//! The interpolating polynomial.

use super::conditions::put_conditions;
use super::elimination::{first_dependent, solve};
use super::monomials::{bound, monomials};
use super::rows::{Row, BLOCK, BLOCKS};

fn cost(matrix: &[u8]) -> usize {
    let cost_of = |&m: &u8| usize::from(m) * (usize::from(m) + 1) / 2;
    matrix.iter().map(cost_of).sum()
}

/// The conditions of a matrix, in the blocks that its cost needs.
pub struct System {
    pub bound: usize,
    pub count: usize,
    blocks: usize,
    rows: Vec<Row>,
}

pub fn system(k: usize, matrix: &[u8]) -> System {
    let v = k - 1;
    let cost = cost(matrix);
    let bound = bound(v, cost);
    let blocks = cost / BLOCK + 1;
    let mut rows = vec![[[0; BLOCK]; BLOCKS]; cost];
    put_conditions(&mut rows, v, bound, blocks, matrix);
    System {
        bound,
        count: monomials(v, bound),
        blocks,
        rows,
    }
}

/// Writes the coefficients.
pub fn eliminate(mut system: System, out: &mut [u8]) {
    let dependent = first_dependent(&mut system.rows, system.blocks);
    out[..system.count].fill(0);
    out[dependent] = 1;
    solve(&system.rows, dependent, out);
}

/// Writes the coefficients, and answers the bound and how many they are.
pub fn interpolate(k: usize, matrix: &[u8], out: &mut [u8]) -> (usize, usize) {
    let system = system(k, matrix);
    let (bound, count) = (system.bound, system.count);
    eliminate(system, out);
    (bound, count)
}
