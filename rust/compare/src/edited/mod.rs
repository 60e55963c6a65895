//! The matrix that is edited: its record made, edited and read.

mod alike;
mod entries;
pub mod inputs;
mod lines;
mod pairs;
mod sequences;
mod single;
pub mod wrongly_held;

pub use alike::matrices;
pub use entries::{COST_AND_BOUND, INTERPOLATE, LIST};

pub fn compare() {
    single::compare();
    sequences::compare();
    alike::compare();
    lines::compare();
}
