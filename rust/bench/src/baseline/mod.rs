//! The proved library's own algorithm in plain safe Rust, to be timed against it: conditions by
//! masks, elimination below the pivots in blocks of sixteen columns, back substitution, the root
//! search of Roth and Ruckenstein, the roots filtered by score; the planner's steps; and the check
//! of a polynomial from outside. Inputs are those that the library accepts; nothing is refused
//! here.

mod conditions;
mod elimination;
mod field;
mod list;
mod monomials;
mod passing;
mod plan;
mod polynomial;
mod roots;
mod rows;

pub use list::{list, rank, ROOM_FOR_ROOTS};
pub use passing::passes;
pub use plan::plan;
pub use polynomial::{eliminate, interpolate, system, System};
pub use roots::roots;
