//! A photograph of a tag.

use crate::settings::Sizes;

/// The list of one photograph of a tag, and how it was read.
#[derive(Clone, Copy, Debug, PartialEq, Eq)]
pub struct Photograph<'a> {
    /// The sizes of the code.
    pub sizes: Sizes,
    /// The level of the reliabilities.
    pub level: usize,
    /// The messages, k symbols each, one after the other.
    pub rows: &'a [u8],
    /// The score of each message.
    pub scores: &'a [u16],
}
