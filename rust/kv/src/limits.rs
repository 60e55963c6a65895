//! The limits, each by the name that `include/kv.h` has for it behind `KV_`.

/// How many symbols there are.
pub const SYMBOLS: usize = 16;
/// The most positions that a codeword has.
pub const POSITIONS: usize = 15;
/// The entries of a [`Matrix`](crate::Matrix), whatever its n is.
pub const ENTRIES: usize = SYMBOLS * POSITIONS;
/// The most that the reliabilities of a position may sum to: those of a clear mark do, those of an
/// erased one are all 0.
pub const WHOLE: u16 = 4096;
/// The greatest level, and the greatest entry of a matrix.
pub const LEVEL: usize = 5;
/// The greatest limit on the cost of a matrix.
pub const LIMIT: usize = 225;
/// The most steps that a plan is asked for.
pub const STEPS: usize = 75;
/// The most coefficients that an interpolated polynomial has.
pub const COEFFICIENTS: usize = 246;
/// The most monomials, each with its coefficient, of a polynomial that comes in.
pub const MONOMIALS: usize = 256;
/// The most rows that a list has.
pub const ROWS: usize = 20;
