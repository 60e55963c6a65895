//! What the documents have written of single calls, beside what each program answers: a misreading
//! that both share would not show in a comparison.

use crate::call::Call;
use crate::entry::{Entry, Program};
use kv::lent::Answer;
use std::process::exit;

/// What the documents have written, and what a program answered.
pub struct Line {
    pub text: String,
    pub written: Vec<u16>,
    pub answered: Vec<u16>,
}

/// A call, by the number and the place of its refusal and by what else it is to tell.
pub fn told_line(
    program: Program,
    entry: &Entry,
    call: &Call,
    written: [u16; 3],
    told: fn(&Answer) -> u16,
) -> Line {
    let answer = entry.outcome(program, call).answer;
    Line {
        text: format!("{} of {call:?}", entry.name),
        written: written.to_vec(),
        answered: vec![answer.number, answer.place, told(&answer)],
    }
}

fn hold_for(entries: &str, program: &str, lines: &[Line]) {
    if let Some(line) = lines.iter().find(|line| line.answered != line.written) {
        eprintln!("{program}: {}", line.text);
        eprintln!("written: {:?}", line.written);
        eprintln!("answered: {:?}", line.answered);
        exit(1);
    }
    println!(
        "compared {entries}, {program}: {} lines of the documents hold",
        lines.len()
    );
}

/// Ends the run unless all lines about some entries hold.
pub fn hold(entries: &str, lines: impl Fn(Program) -> Vec<Line>) {
    hold_for(entries, "proved library", &lines(Program::Proved));
    hold_for(entries, "second program", &lines(Program::Second));
}
