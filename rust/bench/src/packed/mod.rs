//! The list by the same method, packed by hand for speed: sixteen symbols in each word of 64 bits.
//! A condition is a row of up to fifteen words. Elimination takes one pivot at a time, and changes
//! the rows below it whose entry is not 0, from the pivot's word on; back substitution follows.
//! Roots are searched in words of sixteen powers of x, and a symbol that is a simple root decides
//! all those after it. They need no verification, since the score decides.
//! Safe Rust for up to fifteen positions and a cost up to 225; nothing is refused here.

mod conditions;
mod elimination;
mod field;
mod interpolation;
mod lanes;
mod list;
mod monomials;
mod points;
mod roots;
mod rows;
mod shift;
mod straight;
mod substitution;

pub use interpolation::polynomial;
pub use list::list;
