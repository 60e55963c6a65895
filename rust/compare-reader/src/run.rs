//! Runs of the reader, each compared with the second program.

use crate::inputs::document_example;
use second::program::output;
use std::collections::BTreeMap;
use std::io::Write;
use std::process::{exit, Child, ChildStdin, Command, Stdio};
use std::thread::{scope, sleep};
use std::time::{Duration, Instant};

const LEAST_RUNS: usize = 400;
const SEEN: [&str; 6] = [
    "listed",
    "refused 1",
    "refused 2",
    "refused 3",
    "refused 6",
    "refused 7",
];
const DOCUMENT_OUTPUT: &str = "listed 1\nscore 3 message 10\n";

/// How inputs are cut, in turn: whole, in single bytes, and in pieces that end inside a number.
const PIECES: [usize; 4] = [usize::MAX, 1, 7, 101];
/// The pieces after which the writer waits, so that the reader gets them one by one.
const WAITS: usize = 3;
const WAIT: Duration = Duration::from_micros(300);
const PATIENCE: Duration = Duration::from_secs(20);

/// Writes the input in pieces. A reader that has stopped reading may leave the rest.
fn feed(mut pipe: ChildStdin, input: &[u8], piece: usize) {
    for (index, part) in input.chunks(piece).enumerate() {
        if pipe.write_all(part).is_err() {
            return;
        }
        if index < WAITS {
            sleep(WAIT);
        }
    }
}

/// Waits until the reader ends, and ends it where that takes too long.
fn wait_for(reader: &mut Child) -> Result<(), String> {
    let start = Instant::now();
    while start.elapsed() < PATIENCE {
        let status = reader.try_wait().map_err(|error| error.to_string())?;
        if status.is_some() {
            return Ok(());
        }
        sleep(WAIT);
    }
    reader.kill().map_err(|error| error.to_string())?;
    Err("does not end".to_string())
}

pub struct Comparison {
    command: Vec<String>,
    runs: usize,
    seen: BTreeMap<String, usize>,
}

impl Comparison {
    pub fn new(command: Vec<String>) -> Self {
        Comparison {
            command,
            runs: 0,
            seen: BTreeMap::new(),
        }
    }

    /// What the reader writes, unless it could not be run, did not end by itself, or complained.
    fn read(&self, input: &[u8]) -> Result<String, String> {
        let mut child = Command::new(&self.command[0])
            .args(&self.command[1..])
            .stdin(Stdio::piped())
            .stdout(Stdio::piped())
            .stderr(Stdio::piped())
            .spawn()
            .map_err(|error| error.to_string())?;
        let pipe = child.stdin.take().expect("the input is a pipe");
        let piece = PIECES[self.runs % PIECES.len()];
        scope(|threads| {
            threads.spawn(|| feed(pipe, input, piece));
            wait_for(&mut child)
        })?;
        let ended = child
            .wait_with_output()
            .map_err(|error| error.to_string())?;
        let text = |bytes: &[u8]| String::from_utf8_lossy(bytes).into_owned();
        match (ended.status.code(), ended.stderr.is_empty()) {
            (Some(_), true) => Ok(text(&ended.stdout)),
            (Some(_), false) => Err(text(&ended.stderr)),
            (None, _) => Err(ended.status.to_string()),
        }
    }

    fn compare(&mut self, input: &[u8], expected: &str) {
        let read = self.read(input);
        if read.as_deref() != Ok(expected) {
            eprintln!("the reader differs on {input:?}");
            eprintln!("reader: {read:?}");
            eprintln!("second program: {expected:?}");
            exit(1);
        }
        let words = if expected.starts_with("listed") { 1 } else { 2 };
        let kind: Vec<&str> = expected.split_whitespace().take(words).collect();
        *self.seen.entry(kind.join(" ")).or_default() += 1;
        self.runs += 1;
    }

    /// The whole output that document 01 writes out.
    pub fn document_line(&mut self) {
        let input = document_example();
        if output(&input) != DOCUMENT_OUTPUT {
            eprintln!("second program: {:?}", output(&input));
            eprintln!("document 01: {DOCUMENT_OUTPUT:?}");
            exit(1);
        }
        self.compare(&input, DOCUMENT_OUTPUT);
    }

    pub fn run(&mut self, input: &[u8]) {
        self.compare(input, &output(input));
    }

    /// Says what was compared. A run fails that compared too little, or saw other answers.
    pub fn finish(self) {
        if self.runs < LEAST_RUNS || !self.seen.keys().eq(SEEN.iter()) {
            eprintln!("program: {} runs, {:?};", self.runs, self.seen);
            eprintln!("at least {LEAST_RUNS} runs and {SEEN:?} were to be seen");
            exit(1);
        }
        let runs_of = |(answer, runs): (&String, &usize)| format!("{answer}: {runs}");
        let by_answer: Vec<String> = self.seen.iter().map(runs_of).collect();
        println!(
            "compared program: {} runs equal (by answer {})",
            self.runs,
            by_answer.join(", ")
        );
    }
}
