use crate::call::Call;
use crate::comparison::Comparison;
use crate::contents::MESSAGE;
use crate::entry::Entry;
use crate::faults::{length, room};
use crate::sizes::{looks_like, with_entry, Sizes};
use second::code::{every_message, LEAST_SIZE, MOST_POSITIONS};
use second::field::GREATEST_SYMBOL;

const LEAST_CALLS: usize = 335_000;
const SEED: u64 = 1;
const RANDOM_MESSAGES: usize = 50;

pub static ENTRY: Entry = Entry {
    name: "encode",
    proved: |call, lent| kv::lent::encode(call.n, call.k, lent.symbols.part(), lent.out.part_mut()),
    second: |call, lent| {
        second::code::encode(call.n, call.k, lent.symbols.part(), lent.out.part_mut())
    },
    refusals: &[1, 3, 4, 5],
    sizes: Sizes::Both,
    choices: &[
        room(|call| looks_like(call.n)),
        length(|call| looks_like(call.k)),
    ],
    input: MESSAGE,
};

impl Comparison {
    fn encoded(&mut self, n: usize, message: Vec<u8>) {
        let k = message.len();
        self.compare_good(Call {
            symbols: message,
            room: n,
            ..Call::of_sizes(n, k)
        });
    }

    fn every_single_symbol(&mut self, n: usize, k: usize) {
        for place in 0..k {
            for symbol in 0..=GREATEST_SYMBOL {
                self.encoded(n, with_entry(&vec![0; k], place, symbol));
            }
        }
    }

    fn random_messages(&mut self, n: usize, k: usize) {
        for _ in 0..RANDOM_MESSAGES {
            let message = self.random.bytes(k, GREATEST_SYMBOL);
            self.encoded(n, message);
        }
    }
}

pub fn compare() {
    let mut comparison = Comparison::new(&ENTRY, SEED);
    comparison.faults();
    for n in LEAST_SIZE..=MOST_POSITIONS {
        for message in every_message(LEAST_SIZE) {
            comparison.encoded(n, message);
        }
    }
    for (n, k) in Sizes::Both.allowed() {
        comparison.every_single_symbol(n, k);
        comparison.random_messages(n, k);
    }
    comparison.finish(LEAST_CALLS);
}
