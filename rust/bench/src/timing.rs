//! The proved library against the Rust programs.

use crate::edits;
use crate::parts::{plain_parts, proved_parts};
use crate::plans;
use crate::programs::{Program, PACKED, PLAIN, PROVED};
use crate::proposals;
use crate::turns::{in_turns, timed, ROUNDS};
use crate::workloads::{workloads, Workload, K, N};
use std::time::Duration;

const PROGRAMS: [Program; 3] = [PROVED, PLAIN, PACKED];

/// Compares the results of all programs, and says how many rows they list.
fn compare(Workload { name, matrices }: &Workload) {
    let [proved, others @ ..] = &PROGRAMS;
    let rows_of = |matrix: &Vec<u8>| proved.agrees_with(others, K, matrix).1.count;
    let rows: usize = matrices.iter().map(rows_of).sum();
    let count = matrices.len();
    println!("{name}: {count} matrices, {rows} rows listed, results equal");
}

fn print_times(workload: &str, what: &str, times: [f64; PROGRAMS.len()]) {
    let [proved, others @ ..] = times;
    let figures = times.map(|time| format!("{time:.1} µs"));
    let ratios = others.map(|time| format!("{:.2}", proved / time));
    let cells = [figures.as_slice(), &ratios].concat().join(" | ");
    println!("| {workload} | {what} | {cells} |");
}

fn time_programs(Workload { name, matrices }: &Workload) {
    let polynomials = PROGRAMS
        .map(|program| move |turn: &[Vec<u8>]| timed(turn, |matrix| program.polynomial(K, matrix)));
    let lists = PROGRAMS
        .map(|program| move |turn: &[Vec<u8>]| timed(turn, |matrix| program.list(K, matrix)));
    type Call<'a> = &'a dyn Fn(&[Vec<u8>]) -> Duration;
    let times = in_turns(matrices, polynomials.each_ref().map(|call| call as Call));
    print_times(name, "interpolation", times);
    let times = in_turns(matrices, lists.each_ref().map(|call| call as Call));
    print_times(name, "list", times);
}

pub fn time() {
    let workloads = workloads();
    println!("n {N}, k {K}, medians of {ROUNDS} rounds");
    workloads.iter().for_each(compare);
    println!(
        "\n| matrices | | proved | plain Rust | packed Rust | proved / plain | proved / packed |"
    );
    println!("|---|---|---|---|---|---|---|");
    workloads.iter().for_each(time_programs);
    println!("\n| a list's time, proved | list | interpolation | roots | ranking and checks |");
    println!("|---|---|---|---|---|");
    for Workload { name, matrices } in &workloads {
        let [list, interpolation, roots] = proved_parts(matrices);
        let rest = list - interpolation - roots;
        println!(
            "| {name} | {list:.1} µs | {interpolation:.1} µs | {roots:.1} µs | {rest:.1} µs |"
        );
    }
    println!("\n| a list's time, plain Rust | conditions | elimination | roots | ranking |");
    println!("|---|---|---|---|---|");
    for Workload { name, matrices } in &workloads {
        let [conditions, elimination, roots, ranking] = plain_parts(matrices);
        println!(
            "| {name} | {conditions:.1} µs | {elimination:.1} µs | {roots:.1} µs | {ranking:.2} µs |"
        );
    }
    edits::print_times(&workloads);
    plans::print_times();
    proposals::print_times(&workloads);
}
