//! Polynomials from outside: checked, and lists made from them.

mod alike;
mod beside;
mod entries;
mod inputs;
mod lines;
mod products;
mod proposing;
mod single;

pub use entries::{
    CHECK_PROPOSAL, LIST_OF_PROPOSAL, MATRIX_CHECK_PROPOSAL, MATRIX_LIST_OF_PROPOSAL,
};

pub fn compare() {
    single::compare();
    alike::compare();
    lines::compare();
}
