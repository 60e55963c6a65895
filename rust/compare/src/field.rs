use crate::call::Call;
use crate::comparison::Comparison;
use crate::contents::OPERANDS;
use crate::entry::Entry;
use crate::faults::Made;
use crate::sizes::Sizes;
use kv::Refusal;
use second::field::GREATEST_SYMBOL;

const BYTES: usize = 256;

const ARITHMETIC: Entry = Entry {
    name: "sum",
    proved: |call, _| kv::lent::sum(call.symbols[0], call.symbols[1]),
    second: |call, _| second::field::sum(call.symbols[0], call.symbols[1]),
    refusals: &[5],
    sizes: Sizes::Neither,
    choices: &[],
    input: OPERANDS,
};

pub static SUM: Entry = ARITHMETIC;

pub static PRODUCT: Entry = Entry {
    name: "product",
    proved: |call, _| kv::lent::product(call.symbols[0], call.symbols[1]),
    second: |call, _| second::field::product(call.symbols[0], call.symbols[1]),
    ..ARITHMETIC
};

pub static INVERSE: Entry = Entry {
    name: "inverse",
    proved: |call, _| kv::lent::inverse(call.symbols[0]),
    second: |call, _| second::field::inverse(call.symbols[0]),
    refusals: &[5, 8],
    ..ARITHMETIC
};

pub fn call(operands: &[u8]) -> Call {
    Call {
        symbols: operands.to_vec(),
        ..Call::of_sizes(0, 0)
    }
}

fn with_faults(operands: &[u8]) -> Made {
    let above = |&(_, &operand): &(usize, &u8)| operand > GREATEST_SYMBOL;
    let bad = operands.iter().enumerate().filter(above);
    let faults = bad.map(|(index, _)| Refusal::Symbol(index));
    Made::new(call(operands)).with(faults, |_| ())
}

fn compare_pairs(entry: &'static Entry) {
    let mut comparison = Comparison::new(entry, 0);
    for a in 0..=u8::MAX {
        for b in 0..=u8::MAX {
            comparison.compare_made(&with_faults(&[a, b]));
        }
    }
    comparison.finish(BYTES * BYTES);
}

pub fn compare() {
    compare_pairs(&SUM);
    compare_pairs(&PRODUCT);
    let mut comparison = Comparison::new(&INVERSE, 0);
    for a in 0..=u8::MAX {
        let zero = (a == 0).then_some(Refusal::Zero);
        comparison.compare_made(&with_faults(&[a]).with(zero, |_| ()));
    }
    comparison.finish(BYTES);
}
