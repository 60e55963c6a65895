//! A Reed-Solomon soft list decoder over sixteen symbols, by the Koetter-Vardy method: it lists
//! **every** message whose codeword the reliabilities support more strongly than the bound, **and
//! no other**. The library below these calls is proved to do so for every input.
//!
//! ```
//! use kv::{list_of_reliabilities, Settings, Sizes};
//!
//! // Four marks 1, 1, 1, 2, each of them clear, and the last one wrong.
//! let mut reliabilities = [0; 4 * kv::SYMBOLS];
//! for (position, mark) in [1, 1, 1, 2].into_iter().enumerate() {
//!     reliabilities[kv::SYMBOLS * position + mark] = kv::WHOLE;
//! }
//! let sizes = Sizes { n: 4, k: 2 };
//! let settings = Settings { level: 1, limit: kv::LIMIT };
//! let listed = list_of_reliabilities(sizes, settings, &reliabilities)?;
//! assert_eq!(listed.rows.len(), 1);
//! assert_eq!(listed.rows[0].score, 3);
//! assert_eq!(listed.rows[0].message, [1, 0]);
//! # Ok::<(), kv::Refusal>(())
//! ```
//!
//! What to do with such a list says [`judge`], and with those of two photographs [`judge_both`]: open
//! the pouch, ask a person, or nothing.
//!
//! A [`Matrix`] is one that is corrected by hand, and listed again: it keeps its cost as it changes.
//!
//! A [`plan`] is a matrix that is made of the reliabilities step by step. One that comes from outside
//! is checked, and listed where it is right.
//!
//! A polynomial from outside is checked by [`check_proposal`]. Where it passes through every point
//! of the matrix, [`list_of_proposal`] makes the matrix's list from it.
//!
//! Symbols are 0 to 15, polynomials over bits modulo x⁴ + x + 1; alpha is 2. A matrix or a list of
//! reliabilities has the entry of position i, symbol b at 16i + b. Whatever numbers and slices come
//! in, no call panics and every call returns: it answers, or says its [`Refusal`].

#![deny(missing_docs)]

#[allow(unsafe_code)]
mod archive;
mod counter;
pub mod lent;
mod limits;
mod list;
mod matrix;
mod photograph;
mod plan;
mod polynomial;
mod proposal;
mod record;
mod refusal;
mod settings;
mod symbols;

pub use counter::{judge, judge_both, open, open_both, Verdict};
pub use limits::{
    COEFFICIENTS, ENTRIES, LEVEL, LIMIT, MONOMIALS, POSITIONS, ROWS, STEPS, SYMBOLS, WHOLE,
};
pub use list::{
    list_of_multiplicities, list_of_plan, list_of_proposal, list_of_reliabilities, Listed, Row,
};
pub use matrix::{cost_and_bound, multiplicities, CostAndBound};
pub use photograph::Photograph;
pub use plan::{check_plan, plan, Plan};
pub use polynomial::{interpolate, roots, Polynomial};
pub use proposal::check_proposal;
pub use record::Matrix;
pub use refusal::Refusal;
pub use settings::{Settings, Sizes};
pub use symbols::{encode, inverse, product, sum};
