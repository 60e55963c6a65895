//! Codewords, reliabilities and multiplicity matrices as worn tags give them, and others.

mod matrices;
mod paired;
mod random;
mod weights;
mod words;

pub use matrices::{
    hard_word, hard_words, matrix_of, multiplicity, random_matrix, shuffled, within_cost, ERASED,
};
pub use paired::paired;
pub use random::Random;
pub use weights::{rounded_down, shared_weights, soft_weights, with_erased_marks};
pub use words::{close_codewords, random_codeword, with_wrong_marks, words_of_one_more};
