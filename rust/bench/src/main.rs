//! Times the proved library against the same algorithm in plain Rust and against the same method in
//! Rust packed by hand, on the same matrices, in turns. With `--check` nothing is timed, and both
//! Rust programs are compared with the second program. With `--against` two builds of the library
//! are timed against each other.

mod against;
mod baseline;
mod check;
mod edits;
mod insertion;
mod matrices;
mod packed;
mod parts;
mod plans;
mod programs;
mod proposals;
#[allow(unsafe_code)]
mod shared;
mod timing;
mod turns;
mod workloads;

fn main() {
    let words: Vec<String> = std::env::args().skip(1).collect();
    let words: Vec<&str> = words.iter().map(String::as_str).collect();
    match words[..] {
        [] => timing::time(),
        ["--check"] => check::check(),
        ["--against", this, other] => against::time([this, other]),
        _ => {
            eprintln!("usage: bench [--check | --against THIS.so OTHER.so]");
            std::process::exit(2);
        }
    }
}
