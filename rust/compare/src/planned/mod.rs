//! The planner: plans made, and plans from outside checked and listed.

mod alike;
mod beside;
mod entries;
mod inputs;
mod lines;
mod single;
pub mod weights;

pub use entries::{CHECK_PLAN, LIST_OF_PLAN, MATRIX_CHECK_PLAN, MATRIX_LIST_OF_PLAN, PLAN};

pub fn compare() {
    single::compare();
    alike::compare();
    lines::compare();
}
