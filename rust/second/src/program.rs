//! The program over the library: bytes in, text out.

use crate::list::{list_of_reliabilities, MOST_ROWS};
use crate::refusal::Refusal;
use crate::Answer;
use std::fmt::Write;

const BYTES_OF_A_NUMBER: usize = 2;

/// The numbers, low byte first. Where a byte is left over there are none: a wrong length for any n.
fn numbers(bytes: &[u8]) -> Vec<u16> {
    if bytes.len() % BYTES_OF_A_NUMBER != 0 {
        return Vec::new();
    }
    let number = |pair: &[u8]| u16::from_le_bytes([pair[0], pair[1]]);
    bytes.chunks(BYTES_OF_A_NUMBER).map(number).collect()
}

fn text(answer: Answer, k: usize, rows: &[u8], scores: &[u16]) -> String {
    if answer.number != 0 {
        return format!("refused {} at {}\n", answer.number, answer.place);
    }
    let mut text = format!("listed {}\n", answer.count);
    for index in 0..usize::from(answer.count) {
        let message = &rows[k * index..][..k];
        let digits: String = message.iter().map(|symbol| format!("{symbol:x}")).collect();
        writeln!(text, "score {} message {digits}", scores[index])
            .expect("a string takes any text");
    }
    text
}

/// What the program writes to standard output when it reads the input.
pub fn output(input: &[u8]) -> String {
    let &[n, k, level, limit, ref weights @ ..] = input else {
        return text(Refusal::Length.answer(), 0, &[], &[]);
    };
    let [n, k, level, limit] = [n, k, level, limit].map(usize::from);
    let mut rows = vec![0; MOST_ROWS * k];
    let mut scores = [0; MOST_ROWS];
    let weights = numbers(weights);
    let answer = list_of_reliabilities(n, k, level, limit, &weights, &mut rows, &mut scores);
    text(answer, k, &rows, &scores)
}
