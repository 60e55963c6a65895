//! What a code and a reading are set to.

/// The sizes of the code: 2 <= k <= n <= 15, or refusal 1.
#[derive(Clone, Copy, Debug, PartialEq, Eq)]
pub struct Sizes {
    /// The number of positions.
    pub n: usize,
    /// The number of message symbols.
    pub k: usize,
}

/// How a tag is read: 1 <= level <= [`LEVEL`](crate::LEVEL) and limit <= [`LIMIT`](crate::LIMIT), or
/// refusal 2.
#[derive(Clone, Copy, Debug, PartialEq, Eq)]
pub struct Settings {
    /// The level, which multiplies the reliabilities.
    pub level: usize,
    /// The greatest cost that a matrix may have.
    pub limit: usize,
}
