//! Two builds of the library against each other, in turns. Both come out of shared objects: one that
//! is linked in takes other times than the same one loaded.

use crate::shared::Shared;
use crate::turns::{in_turns, timed, ROUNDS};
use crate::workloads::{workloads, Workload, K, N};
use kv::lent::Answer;
use kv::{COEFFICIENTS, POSITIONS, ROWS};
use second::bound::cost;
use std::process::exit;

/// A matrix and its cost, which is the limit it is given: whatever the greatest limit of a build is,
/// it takes the matrix if it takes one of that cost.
struct Priced {
    matrix: Vec<u8>,
    cost: usize,
}

fn priced(matrix: Vec<u8>) -> Priced {
    let cost = cost(&matrix);
    Priced { matrix, cost }
}

type Coefficients = [u8; COEFFICIENTS];
type Rows = [u8; ROWS * POSITIONS];
type Scores = [u16; ROWS];

fn bounded(library: &Shared, Priced { matrix, .. }: &Priced) -> Answer {
    library.cost_and_bound(N, K, matrix)
}

fn polynomial(library: &Shared, Priced { matrix, cost }: &Priced) -> (Answer, Coefficients) {
    let mut out = [0; COEFFICIENTS];
    let answer = library.interpolate(N, K, *cost, matrix, &mut out);
    (answer, out)
}

fn listed(library: &Shared, Priced { matrix, cost }: &Priced) -> (Answer, Rows, Scores) {
    let (mut rows, mut scores) = ([0; ROWS * POSITIONS], [0; ROWS]);
    let answer = library.list(N, K, *cost, matrix, &mut rows, &mut scores);
    (answer, rows, scores)
}

struct Comparison<'a> {
    builds: &'a [Shared; 2],
    workload: &'a str,
    inputs: &'a [Priced],
}

impl Comparison<'_> {
    fn print_times<Output: PartialEq>(
        &self,
        what: &str,
        call: impl Fn(&Shared, &Priced) -> Output,
    ) {
        let workload = self.workload;
        let [this, other] = self.builds;
        let alike = |input| call(this, input) == call(other, input);
        if !self.inputs.iter().all(alike) {
            println!("| {workload} | {what} | the other answers otherwise, and is not timed | | |");
            return;
        }
        let time_this = |turn: &[Priced]| timed(turn, |input| call(this, input));
        let time_other = |turn: &[Priced]| timed(turn, |input| call(other, input));
        let [this, other] = in_turns(self.inputs, [&time_this, &time_other]);
        let ratio = this / other;
        println!("| {workload} | {what} | {this:.2} µs | {other:.2} µs | {ratio:.3} |");
    }
}

fn opened(file: &str) -> Shared {
    Shared::open(file).unwrap_or_else(|| {
        eprintln!("bench: {file} is no shared object of the library");
        exit(1);
    })
}

pub fn time(files: [&str; 2]) {
    let builds = files.map(opened);
    println!("n {N}, k {K}, medians of {ROUNDS} rounds\n");
    println!("| matrices | | this | the other | this / the other |");
    println!("|---|---|---|---|---|");
    for Workload { name, matrices } in workloads() {
        let inputs: Vec<Priced> = matrices.into_iter().map(priced).collect();
        let comparison = Comparison {
            builds: &builds,
            workload: name,
            inputs: &inputs,
        };
        comparison.print_times("cost and bound", bounded);
        comparison.print_times("interpolation", polynomial);
        comparison.print_times("list", listed);
    }
}
