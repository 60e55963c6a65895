//! The table of faults, for all entries: what a call can have wrong, where right and wrong meet,
//! and how a call is made that has it. A fault is the refusal that it is reason for.

use crate::call::Call;
use crate::sizes::{huge_sizes, lengths_around, lengths_like, lengths_up_to, looks_like};
use kv::Refusal;
use second::bound::GREATEST_LIMIT;
use second::list::MOST_ROWS;
use second::plan::GREATEST_STEPS;
use second::weights::{GREATEST_LEVEL, LEAST_LEVEL};
use tags::Random;

/// A call in the making, and the faults that were put into it.
#[derive(Clone)]
pub struct Made {
    pub call: Call,
    /// Of the input that is to come.
    pub length: usize,
    /// Of the plan, or of the coefficients, that are to come with it.
    pub plan_length: usize,
    pub coefficients_length: usize,
    pub faults: Vec<Refusal>,
    /// Those that are tried after all others.
    pub late: Vec<Refusal>,
    /// What is to be told where the call is not refused, if that is known.
    pub value: Option<u16>,
}

impl Made {
    pub fn new(call: Call) -> Self {
        Made {
            call,
            length: 0,
            plan_length: 0,
            coefficients_length: 0,
            faults: Vec::new(),
            late: Vec::new(),
            value: None,
        }
    }

    pub fn with(
        &self,
        faults: impl IntoIterator<Item = Refusal>,
        put: impl FnOnce(&mut Made),
    ) -> Made {
        let mut made = self.clone();
        made.faults.extend(faults);
        put(&mut made);
        made
    }

    pub fn refusal(&self) -> Option<Refusal> {
        first_of(&self.faults).or(first_of(&self.late))
    }

    pub fn every_fault(&self) -> Vec<Refusal> {
        [self.faults.as_slice(), &self.late].concat()
    }
}

/// The refusal that document 01 asks for: the lowest number, and the first place.
pub fn first_of(faults: &[Refusal]) -> Option<Refusal> {
    let order = |fault: &Refusal| (fault.number(), fault.place());
    faults.iter().copied().min_by_key(order)
}

/// A number of a call, apart from its sizes.
pub struct Choice {
    /// What it is where it is not allowed.
    pub fault: Refusal,
    /// What the sizes ask for, or the greatest one allowed.
    pub right: fn(&Call) -> usize,
    /// Whether, beside the right one, a number is allowed.
    pub allowed: fn(usize, usize) -> bool,
    /// Numbers on both sides of the right one, or of all that are allowed.
    pub around: fn(usize) -> Vec<usize>,
    /// Numbers that look like others to whoever drops high bits.
    pub far: fn(usize) -> Vec<usize>,
    pub put: fn(&mut Made, usize),
}

#[derive(Clone, Copy)]
pub enum Reach {
    Right,
    Around,
    Far,
    /// One of those around or far, whichever the number picks.
    OneAround(usize),
    OneFar(usize),
}

fn picked(numbers: Vec<usize>, pick: usize) -> Vec<usize> {
    vec![numbers[pick % numbers.len()]]
}

impl Choice {
    pub fn made(&self, reach: Reach, made: &Made) -> Vec<Made> {
        let right = (self.right)(&made.call);
        let numbers = match reach {
            Reach::Right => vec![right],
            Reach::Around => (self.around)(right),
            Reach::Far => (self.far)(right),
            Reach::OneAround(pick) => picked((self.around)(right), pick),
            Reach::OneFar(pick) => picked((self.far)(right), pick),
        };
        let with = |number: usize| {
            let fault = (!(self.allowed)(right, number)).then_some(self.fault);
            made.with(fault, |made| (self.put)(made, number))
        };
        numbers.into_iter().map(with).collect()
    }
}

pub const LIMIT: Choice = Choice {
    fault: Refusal::Setting,
    right: |_| GREATEST_LIMIT,
    allowed: |greatest, limit| limit <= greatest,
    around: |greatest| vec![0, greatest, greatest + 1],
    far: |_| huge_sizes(),
    put: |made, limit| made.call.limit = limit,
};

pub const LEVEL: Choice = Choice {
    fault: Refusal::Setting,
    right: |_| GREATEST_LEVEL,
    allowed: |greatest, level| (LEAST_LEVEL..=greatest).contains(&level),
    around: |greatest| vec![LEAST_LEVEL - 1, LEAST_LEVEL, greatest, greatest + 1],
    far: |_| huge_sizes(),
    put: |made, level| made.call.level = level,
};

pub const STEPS: Choice = Choice {
    fault: Refusal::Setting,
    right: |_| GREATEST_STEPS,
    allowed: |greatest, steps| steps <= greatest,
    around: |greatest| vec![0, 1, greatest - 1, greatest, greatest + 1],
    far: |_| huge_sizes(),
    put: |made, steps| made.call.steps = steps,
};

/// The room for what is written, where the sizes ask for so much.
pub const fn room(wanted: fn(&Call) -> usize) -> Choice {
    Choice {
        fault: Refusal::Room,
        right: wanted,
        allowed: |wanted, room| room >= wanted,
        around: lengths_around,
        far: |wanted| [lengths_like(wanted), lengths_like(0)].concat(),
        put: |made, room| made.call.room = room,
    }
}

pub const ROOM_FOR_ROWS: Choice = Choice {
    around: lengths_up_to,
    ..room(|call| MOST_ROWS * looks_like(call.k))
};

pub const ROOM_FOR_SCORES: Choice = Choice {
    around: lengths_up_to,
    put: |made, room| made.call.room_for_scores = room,
    ..room(|_| MOST_ROWS)
};

/// The length of the input, where the sizes ask for so much.
pub const fn length(wanted: fn(&Call) -> usize) -> Choice {
    Choice {
        fault: Refusal::Length,
        right: wanted,
        allowed: |wanted, length| length == wanted,
        around: lengths_around,
        far: lengths_like,
        put: |made, length| made.length = length,
    }
}

/// What an input of the length that was chosen can hold.
pub struct Input {
    /// Good contents, those with a fault of the whole, and each with a fault in one place.
    pub contents: fn(&Made, &mut Random) -> Vec<Made>,
    /// For each place a content with a fault there, and some with another one later.
    pub each_place: fn(&Made, &mut Random) -> Vec<Made>,
}
