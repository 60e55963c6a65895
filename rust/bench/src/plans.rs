//! What a plan takes, beside the same steps in plain Rust, and its list beside that of any matrix.

use crate::baseline;
use crate::turns::{in_turns, timed};
use crate::workloads::{weights, K, N};
use kv::lent;
use kv::{ENTRIES, LIMIT, POSITIONS, ROWS, STEPS};
use second::plan::ruled;

type Plan = (usize, [u8; ENTRIES]);

fn proved(reliabilities: &[u16]) -> Plan {
    let mut plan = [0; ENTRIES];
    let answer = lent::plan(N, STEPS, reliabilities, &mut plan);
    (answer.value.into(), plan)
}

fn plain(reliabilities: &[u16]) -> Plan {
    let mut plan = [0; ENTRIES];
    let steps = baseline::plan(STEPS, reliabilities, &mut plan);
    (steps, plan)
}

fn list_of_plan(reliabilities: &[u16], plan: &[u8]) -> u16 {
    let (mut rows, mut scores) = ([0; ROWS * POSITIONS], [0; ROWS]);
    let (rows, scores) = (&mut rows, &mut scores);
    lent::list_of_plan(N, K, LIMIT, STEPS, reliabilities, plan, rows, scores).count
}

fn list(plan: &[u8]) -> u16 {
    let (mut rows, mut scores) = ([0; ROWS * POSITIONS], [0; ROWS]);
    lent::list_of_multiplicities(N, K, LIMIT, plan, &mut rows, &mut scores).count
}

/// Ends the run unless both programs plan what the second program does.
fn compare(inputs: &[(Vec<u16>, Plan)]) {
    for (reliabilities, plan) in inputs {
        let ruled = ruled(STEPS, reliabilities);
        assert_eq!((plan.0, &plan.1[..]), (ruled.steps, &ruled.entries[..]));
        assert_eq!(plain(reliabilities), *plan, "plain Rust plans otherwise");
    }
}

fn print_times_of(name: &str, weights: Vec<Vec<u16>>) {
    let planned = |reliabilities: Vec<u16>| {
        let plan = proved(&reliabilities);
        (reliabilities, plan)
    };
    let inputs: Vec<(Vec<u16>, Plan)> = weights.into_iter().map(planned).collect();
    compare(&inputs);
    let done: usize = inputs.iter().map(|(_, (done, _))| done).sum();
    let done = done as f64 / inputs.len() as f64;
    let [proved, plain, list_of_plan, list] = in_turns(
        &inputs,
        [
            &|turn| timed(turn, |(reliabilities, _)| proved(reliabilities)),
            &|turn| timed(turn, |(reliabilities, _)| plain(reliabilities)),
            &|turn| timed(turn, |(weights, (_, plan))| list_of_plan(weights, plan)),
            &|turn| timed(turn, |(_, (_, plan))| list(plan)),
        ],
    );
    let ratio = proved / plain;
    println!(
        "| {name} | {done:.1} | {proved:.1} µs | {plain:.1} µs | {ratio:.2} | {list_of_plan:.1} µs | {list:.1} µs |"
    );
}

pub fn print_times() {
    println!(
        "\n| a plan of {STEPS} steps | steps done | proved | plain Rust | proved / plain \
         | list of the plan | list of its matrix |"
    );
    println!("|---|---|---|---|---|---|---|");
    for (name, weights) in weights() {
        print_times_of(name, weights);
    }
}
