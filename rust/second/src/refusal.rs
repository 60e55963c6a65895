//! The table of refusals.

use crate::Answer;

#[derive(Clone, Copy)]
pub enum Refusal {
    Sizes,
    Setting,
    Length,
    Room,
    Symbol(usize),
    Column(usize),
    Cost,
    Zero,
    Plan,
    Proposal,
}

impl Refusal {
    pub fn number(self) -> u16 {
        match self {
            Refusal::Sizes => 1,
            Refusal::Setting => 2,
            Refusal::Length => 3,
            Refusal::Room => 4,
            Refusal::Symbol(_) => 5,
            Refusal::Column(_) => 6,
            Refusal::Cost => 7,
            Refusal::Zero => 8,
            Refusal::Plan => 9,
            Refusal::Proposal => 10,
        }
    }

    pub fn place(self) -> usize {
        match self {
            Refusal::Symbol(index) => index,
            Refusal::Column(position) => position,
            _ => 0,
        }
    }

    pub fn answer(self) -> Answer {
        Answer {
            number: self.number(),
            place: u16::try_from(self.place())
                .expect("a place lies inside an input of right length"),
            ..Answer::default()
        }
    }
}

/// The first refusal among tests that stand in the table's order, or else what the work answers.
pub fn unless_refused(tests: &[Option<Refusal>], work: impl FnOnce() -> Answer) -> Answer {
    match tests.iter().copied().flatten().next() {
        Some(refusal) => refusal.answer(),
        None => work(),
    }
}

/// Ends with a refusal where the table gives it.
pub fn refuse(when: bool, refusal: Refusal) -> Result<(), Refusal> {
    match when {
        true => Err(refusal),
        false => Ok(()),
    }
}

/// Ends with the refusal that was found, if any was.
pub fn refuse_found(found: Option<Refusal>) -> Result<(), Refusal> {
    found.map_or(Ok(()), Err)
}

/// The answer of what ends with a refusal, or with what the work answers.
pub fn answered(result: Result<Answer, Refusal>) -> Answer {
    result.unwrap_or_else(Refusal::answer)
}

/// The refusal of the first number above the greatest one allowed.
pub fn symbol_above(greatest: u8, numbers: &[u8]) -> Option<Refusal> {
    numbers
        .iter()
        .position(|&number| number > greatest)
        .map(Refusal::Symbol)
}
