//! Calls the proved library and the second program on the same inputs, and compares what they
//! answer and what they leave in lent memory. The first difference ends the run with status 1.

mod call;
mod columns;
mod comparison;
mod contents;
mod cost_and_bound;
mod counter;
mod edges;
mod edited;
mod encode;
mod entry;
mod faults;
mod field;
mod interpolation;
mod lent;
mod limits;
mod lines;
mod list_of_multiplicities;
mod list_of_reliabilities;
mod lists;
mod multiplicities;
mod planned;
mod planted;
mod proposed;
mod record;
mod roots;
mod sizes;
mod sums;
mod tally;

use std::sync::atomic::{AtomicUsize, Ordering};
use std::thread;

const COMPARISONS: [fn(); 14] = [
    field::compare,
    encode::compare,
    multiplicities::compare,
    cost_and_bound::compare,
    interpolation::compare,
    roots::compare,
    list_of_multiplicities::compare,
    list_of_reliabilities::compare,
    edges::compare,
    limits::compare,
    counter::compare,
    edited::compare,
    planned::compare,
    proposed::compare,
];

/// Takes the next comparison, until there is none.
fn work(taken: &AtomicUsize) {
    let next = || COMPARISONS.get(taken.fetch_add(1, Ordering::Relaxed));
    while let Some(compare) = next() {
        compare();
    }
}

/// Comparisons run side by side, as many as the machine can: calls may, from several threads.
fn main() {
    let at_once = thread::available_parallelism().map_or(1, usize::from);
    let taken = AtomicUsize::new(0);
    thread::scope(|threads| {
        for _ in 0..at_once {
            threads.spawn(|| work(&taken));
        }
    });
}
