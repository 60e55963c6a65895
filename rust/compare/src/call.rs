//! A call of any entry: what comes in, what is lent, and what comes out.

use crate::lent::Lent;
use crate::record::{LentRecord, Record};
use kv::lent::Answer;

/// An entry looks at no more of it than it takes.
#[derive(Clone, Debug)]
pub struct Call {
    pub n: usize,
    pub k: usize,
    pub level: usize,
    pub limit: usize,
    pub steps: usize,
    pub degree: usize,
    /// Operands, a message, a matrix, a plan or the coefficients whose roots are asked for.
    pub symbols: Vec<u8>,
    /// Those of a polynomial that comes with a matrix.
    pub coefficients: Vec<u8>,
    pub reliabilities: Vec<u16>,
    /// Lent for what is written.
    pub room: usize,
    pub room_for_scores: usize,
    /// A record, and one that is added to it.
    pub records: Vec<Record>,
    pub edit: Edit,
}

/// What an edit takes beside the record.
#[derive(Clone, Copy, Debug, Default)]
pub struct Edit {
    pub position: usize,
    pub symbol: usize,
    pub entry: u8,
    /// n of the record that is added.
    pub other_n: usize,
}

impl Call {
    /// With nothing else, and a limit that no cost is above.
    pub fn of_sizes(n: usize, k: usize) -> Self {
        Call {
            n,
            k,
            level: 0,
            limit: usize::MAX,
            steps: 0,
            degree: 0,
            symbols: Vec::new(),
            coefficients: Vec::new(),
            reliabilities: Vec::new(),
            room: 0,
            room_for_scores: 0,
            records: Vec::new(),
            edit: Edit::default(),
        }
    }
}

#[derive(Clone, Debug, PartialEq)]
pub struct Memory {
    pub symbols: Lent<u8>,
    pub coefficients: Lent<u8>,
    pub reliabilities: Lent<u16>,
    pub out: Lent<u8>,
    pub scores: Lent<u16>,
    pub records: Vec<LentRecord>,
}

impl Memory {
    pub fn lent_to(call: &Call) -> Self {
        Memory {
            symbols: Lent::bytes(&call.symbols),
            coefficients: Lent::bytes(&call.coefficients),
            reliabilities: Lent::numbers(&call.reliabilities),
            out: Lent::room(call.room),
            scores: Lent::room_for_scores(call.room_for_scores),
            records: call.records.iter().map(LentRecord::new).collect(),
        }
    }
}

/// What a call answers and what it leaves in lent memory.
#[derive(Debug, PartialEq)]
pub struct Outcome {
    pub answer: Answer,
    pub memory: Memory,
}

impl Outcome {
    /// Some numbers of the answer, and then what was written.
    pub fn numbers(&self, answer: &[u16], written: usize) -> Vec<u16> {
        let written = self.memory.out.part().iter().take(written);
        let numbers = answer.iter().copied();
        numbers.chain(written.copied().map(u16::from)).collect()
    }
}
