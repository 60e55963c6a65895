use crate::call::Call;
use crate::comparison::Comparison;
use crate::contents::COEFFICIENTS;
use crate::entry::{Entry, Program};
use crate::faults::{length, room, Choice};
use crate::lines::{hold, Line};
use crate::planted::{greatest_degree, grid, in_order, message, monomials, planted, times_y_plus};
use crate::sizes::{huge_sizes, looks_like, Sizes};
use kv::Refusal;
use second::code::{LEAST_SIZE, MOST_POSITIONS};
use second::roots::MOST_COEFFICIENTS;
use std::process::exit;

const LEAST_CALLS: usize = 345_000;
const LEAST_ROOTS: usize = 5_000;
const SEED: u64 = 5;
const RANDOM_POLYNOMIALS: usize = 8;

pub static ENTRY: Entry = Entry {
    name: "roots",
    proved: |call, lent| {
        let (coefficients, out) = (lent.symbols.part(), lent.out.part_mut());
        kv::lent::roots(call.degree, call.k, coefficients, out)
    },
    second: |call, lent| {
        let (coefficients, out) = (lent.symbols.part(), lent.out.part_mut());
        second::roots::roots(call.degree, call.k, coefficients, out)
    },
    refusals: &[1, 2, 3, 4, 5, 8],
    sizes: Sizes::K,
    choices: &[
        DEGREE,
        room(|call| looks_like(call.k) * (seeming_degree(call) / weight(call))),
        length(|call| monomials(weight(call), seeming_degree(call)).len()),
    ],
    input: COEFFICIENTS,
};

const DEGREE: Choice = Choice {
    fault: Refusal::Setting,
    right: |call| greatest_degree(weight(call)),
    allowed: |greatest, degree| degree <= greatest,
    around: |greatest| {
        let ends = [greatest - 1, greatest, greatest + 1, greatest + 2];
        let great = [MOST_COEFFICIENTS - 1, usize::MAX / 2, usize::MAX - 1];
        let small = (0..=MOST_POSITIONS).collect();
        [small, ends.to_vec(), great.to_vec(), huge_sizes()].concat()
    },
    far: |_| Vec::new(),
    put: |made, degree| made.call.degree = degree,
};

/// k - 1, or what it looks like.
pub fn weight(call: &Call) -> usize {
    looks_like(call.k).saturating_sub(1).max(1)
}

/// The small degree that a great one looks like; a small degree itself.
pub fn seeming_degree(call: &Call) -> usize {
    match call.degree < MOST_COEFFICIENTS / 2 {
        true => call.degree,
        false => call.degree % (MOST_POSITIONS + 1),
    }
}

impl Comparison {
    fn rooted(&mut self, degree: usize, k: usize, coefficients: Vec<u8>) {
        self.compare_good(Call {
            degree,
            symbols: coefficients,
            room: k * (degree / (k - 1)),
            ..Call::of_sizes(0, k)
        });
    }

    fn polynomials(&mut self, degree: usize, k: usize) {
        let most = degree / (k - 1);
        for _ in 0..RANDOM_POLYNOMIALS {
            let roots = self.random.between(0, most);
            let coefficients = planted(&mut self.random, degree, k, roots);
            self.rooted(degree, k, coefficients);
        }
        let full = planted(&mut self.random, degree, k, most);
        self.rooted(degree, k, full);
    }

    /// y plus f, times itself again and again: one root, many times.
    fn powers_of_one_factor(&mut self, degree: usize, k: usize) {
        let (v, f) = (k - 1, message(&mut self.random, k));
        let mut product = grid(v, degree, &[1]);
        for _ in 0..degree / v {
            product = times_y_plus(&f, &product);
            self.rooted(degree, k, in_order(v, degree, &product));
        }
    }
}

/// What document 01 says of single polynomials of degree 2 with k 2.
fn lines(program: Program) -> Vec<Line> {
    let line = |coefficients: &[u8], messages: &[u16]| {
        let outcome = ENTRY.outcome(
            program,
            &Call {
                degree: 2,
                symbols: coefficients.to_vec(),
                room: 4,
                ..Call::of_sizes(0, 2)
            },
        );
        Line {
            text: format!("the roots of {coefficients:?}"),
            written: [&[messages.len() as u16 / 2], messages].concat(),
            answered: outcome.numbers(&[outcome.answer.count], messages.len()),
        }
    };
    vec![
        line(&[0, 0, 0, 0, 1, 1], &[0, 0, 0, 1]),
        line(&[0, 0, 0, 0, 0, 1], &[0, 0]),
        line(&[0, 0, 1, 1, 0, 0], &[]),
    ]
}

pub fn compare() {
    let mut comparison = Comparison::new(&ENTRY, SEED);
    comparison.faults();
    for k in LEAST_SIZE..=MOST_POSITIONS {
        let greatest = greatest_degree(k - 1);
        comparison.powers_of_one_factor(greatest, k);
        for degree in 0..=greatest {
            comparison.polynomials(degree, k);
        }
    }
    if comparison.tally.counted < LEAST_ROOTS {
        eprintln!("fewer than {LEAST_ROOTS} roots were found");
        exit(1);
    }
    comparison.finish(LEAST_CALLS);
    hold("roots", lines);
}
