//! What an edit of a record takes, beside the cost of the whole matrix added up.

use crate::turns::{in_turns, timed};
use crate::workloads::{Workload, K, N};
use kv::{cost_and_bound, Matrix, Refusal, Sizes};

const SIZES: Sizes = Sizes { n: N, k: K };

/// The record, copied and edited.
fn edited(record: &Matrix, edit: impl Fn(&mut Matrix) -> Result<(), Refusal>) -> Matrix {
    let mut copy = record.clone();
    edit(&mut copy).expect("the edit is not refused");
    copy
}

/// Cost and bound of the bytes and of the record, an entry set, and a record added.
fn times(matrices: &[Vec<u8>]) -> Result<[f64; 4], Refusal> {
    let fresh = Matrix::fresh(N)?;
    let with_record = |matrix: &Vec<u8>| Ok((matrix.clone(), Matrix::of_bytes(N, matrix)?));
    let inputs: Result<Vec<(Vec<u8>, Matrix)>, Refusal> =
        matrices.iter().map(with_record).collect();
    Ok(in_turns(
        &inputs?,
        [
            &|turn| timed(turn, |(matrix, _)| cost_and_bound(SIZES, matrix)),
            &|turn| timed(turn, |(_, record)| record.cost_and_bound(K)),
            &|turn| timed(turn, |(_, record)| edited(record, |r| r.set_entry(7, 7, 1))),
            &|turn| timed(turn, |(_, record)| edited(record, |r| r.add(&fresh))),
        ],
    ))
}

pub fn print_times(workloads: &[Workload]) {
    println!("\n| a record's times | cost and bound of bytes | of the record | an entry set | a record added |");
    println!("|---|---|---|---|---|");
    for Workload { name, matrices } in workloads {
        let times = times(matrices).expect("the matrices are not refused");
        println!(
            "| {name} | {} |",
            times.map(|t| format!("{t:.2} µs")).join(" | ")
        );
    }
}
