//! What a check of a polynomial takes, beside the same in plain Rust and beside its interpolation,
//! and the list that is made from it beside that of its matrix.

use crate::baseline;
use crate::programs::{Polynomial, PROVED};
use crate::turns::{in_turns, timed};
use crate::workloads::{proposed_for_all, Proposed, Workload, K, N};
use kv::lent;
use kv::{LIMIT, POSITIONS, ROWS};
use second::proposal::Proposal;

/// Of one and the same.
const CALLS: usize = 100;

fn proved(proposed: &Proposed) -> bool {
    let (matrix, coefficients) = (&proposed.matrix, &proposed.coefficients);
    lent::check_proposal(N, proposed.k, proposed.degree, matrix, coefficients).value == 1
}

fn plain(proposed: &Proposed) -> bool {
    let (matrix, coefficients) = (&proposed.matrix, &proposed.coefficients);
    baseline::passes(proposed.k, proposed.degree, matrix, coefficients)
}

/// Ends the run unless both programs answer what the second program does.
fn compare(inputs: &[Proposed]) {
    for proposed in inputs {
        let proposal = Proposal {
            degree: proposed.degree,
            coefficients: &proposed.coefficients,
        };
        let is_yes = proposal.is_yes(proposed.k, &proposed.matrix);
        assert_eq!(proved(proposed), is_yes, "the library answers otherwise");
        assert_eq!(plain(proposed), is_yes, "plain Rust answers otherwise");
    }
}

fn own(matrix: &[u8]) -> Proposed {
    let Polynomial {
        bound,
        count,
        coefficients,
    } = PROVED.polynomial(K, matrix);
    Proposed {
        k: K,
        degree: bound,
        matrix: matrix.to_vec(),
        coefficients: coefficients[..count].to_vec(),
    }
}

fn list_of_proposal(proposed: &Proposed) -> u16 {
    let (mut rows, mut scores) = ([0; ROWS * POSITIONS], [0; ROWS]);
    let (rows, scores) = (&mut rows, &mut scores);
    let (matrix, coefficients) = (&proposed.matrix, &proposed.coefficients);
    lent::list_of_proposal(
        N,
        K,
        LIMIT,
        proposed.degree,
        matrix,
        coefficients,
        rows,
        scores,
    )
    .count
}

fn print_times_of(Workload { name, matrices }: &Workload) {
    let inputs: Vec<Proposed> = matrices.iter().map(|matrix| own(matrix)).collect();
    compare(&inputs);
    let [proved, plain, interpolation] = in_turns(
        &inputs,
        [
            &|turn| timed(turn, proved),
            &|turn| timed(turn, plain),
            &|turn| timed(turn, |proposed| PROVED.polynomial(K, &proposed.matrix)),
        ],
    );
    let [list_of_proposal, list] = in_turns(
        &inputs,
        [&|turn| timed(turn, list_of_proposal), &|turn| {
            timed(turn, |proposed| PROVED.list(K, &proposed.matrix))
        }],
    );
    let ratio = proved / plain;
    println!(
        "| {name} | {proved:.1} µs | {plain:.1} µs | {ratio:.2} | {interpolation:.1} µs \
         | {list_of_proposal:.1} µs | {list:.1} µs |"
    );
}

fn print_time_for_all(name: &str, conditions: usize, proposed: Proposed) {
    let inputs = vec![proposed; CALLS];
    compare(&inputs[..1]);
    let [proved, plain] = in_turns(
        &inputs,
        [&|turn| timed(turn, proved), &|turn| timed(turn, plain)],
    );
    let ratio = proved / plain;
    println!("| {name} | {conditions} | {proved:.1} µs | {plain:.1} µs | {ratio:.2} |");
}

pub fn print_times(workloads: &[Workload]) {
    println!(
        "\n| a proposal | check, proved | plain Rust | proved / plain | interpolation \
         | list of the proposal | list of its matrix |"
    );
    println!("|---|---|---|---|---|---|---|");
    workloads.iter().for_each(print_times_of);
    println!("\n| one number throughout | conditions tried | check, proved | plain Rust | proved / plain |");
    println!("|---|---|---|---|---|");
    for (name, conditions, proposed) in proposed_for_all() {
        print_time_for_all(name, conditions, proposed);
    }
}
