//! Feeds the reader program and the second program the same bytes, and compares what they write.
//! The arguments are the command that runs the reader. The first difference ends the run with
//! status 1.

mod inputs;
mod run;

use run::Comparison;
use std::env::args;
use std::process::exit;

fn main() {
    let command: Vec<String> = args().skip(1).collect();
    if command.is_empty() {
        eprintln!("usage: program COMMAND [ARGUMENT...]");
        exit(2);
    }
    let mut comparison = Comparison::new(command);
    comparison.document_line();
    for input in inputs::all() {
        comparison.run(&input);
    }
    comparison.finish();
}
