//! The second program: the public entries written anew from documents 01 and 02 alone, by the most
//! literal reading, by brute force, and by other methods than the proved library's where that would
//! take too long. It shares no code and no table with that library, and is slow.

mod answer;
pub mod bound;
pub mod code;
pub mod counter;
pub mod field;
pub mod interpolation;
pub mod list;
pub mod plan;
mod polynomial;
pub mod program;
pub mod proposal;
pub mod record;
mod refusal;
pub mod roots;
mod search;
pub mod weights;

pub use answer::Answer;
