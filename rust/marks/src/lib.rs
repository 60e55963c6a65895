//! Tags for people: a text of the marks, the program's bytes, and a picture beside the list, which
//! comes from the proved library.

pub mod bytes;
pub mod check;
pub mod file;
pub mod list;
pub mod picture;
pub mod reading;
pub mod tag;
pub mod text;
