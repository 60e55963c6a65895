//! An entry: how both programs are called, and which faults a call of it can have.

use crate::call::{Call, Memory, Outcome};
use crate::faults::{Choice, Input};
use crate::sizes::Sizes;
use kv::lent::Answer;
use std::fmt::Debug;
use std::process::exit;

#[derive(Clone, Copy)]
pub enum Program {
    Proved,
    Second,
}

pub struct Entry {
    pub name: &'static str,
    pub proved: fn(&Call, &mut Memory) -> Answer,
    pub second: fn(&Call, &mut Memory) -> second::Answer,
    /// The numbers of the refusals that it can give.
    pub refusals: &'static [u16],
    pub sizes: Sizes,
    /// Its settings, the rooms that it is lent and the length of its input.
    pub choices: &'static [Choice],
    pub input: Input,
}

fn in_common(answer: second::Answer) -> Answer {
    Answer {
        number: answer.number,
        place: answer.place,
        count: answer.count,
        value: answer.value,
        cost: answer.cost,
        bound: answer.bound,
    }
}

impl Entry {
    pub fn outcome_in(&self, program: Program, call: &Call, mut memory: Memory) -> Outcome {
        let answer = match program {
            Program::Proved => (self.proved)(call, &mut memory),
            Program::Second => in_common((self.second)(call, &mut memory)),
        };
        Outcome { answer, memory }
    }

    pub fn outcome(&self, program: Program, call: &Call) -> Outcome {
        self.outcome_in(program, call, Memory::lent_to(call))
    }

    /// Ends the run unless a call of this entry found what was expected.
    pub fn found<T: Debug + PartialEq>(&self, call: &Call, found: &T, expected: &T) {
        if found != expected {
            eprintln!("{} differs on {call:?}", self.name);
            eprintln!("found: {found:?}");
            eprintln!("expected: {expected:?}");
            exit(1);
        }
    }
}
