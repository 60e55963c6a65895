//! The programs that are timed, the second program, and what their calls write, to be compared.

use crate::baseline;
use crate::packed;
use second::bound::GREATEST_LIMIT;
use second::code::MOST_POSITIONS;
use second::field::SYMBOLS;
use second::interpolation::ROOM_FOR_COEFFICIENTS;
use second::list::MOST_ROWS;
use std::fmt::Debug;
use std::process::exit;

#[derive(Debug, PartialEq)]
pub struct Polynomial {
    pub bound: usize,
    pub count: usize,
    pub coefficients: [u8; ROOM_FOR_COEFFICIENTS],
}

#[derive(Debug, PartialEq)]
pub struct List {
    pub count: usize,
    pub rows: [u8; MOST_ROWS * MOST_POSITIONS],
    pub scores: [u16; MOST_ROWS],
}

pub struct Program {
    pub name: &'static str,
    /// Writes the coefficients, and answers the bound and how many they are.
    interpolate: fn(usize, &[u8], &mut [u8]) -> (usize, usize),
    /// Writes rows and scores, and answers how many there are.
    list: fn(usize, &[u8], &mut [u8], &mut [u16]) -> usize,
}

impl Program {
    pub fn polynomial(&self, k: usize, matrix: &[u8]) -> Polynomial {
        let mut coefficients = [0; ROOM_FOR_COEFFICIENTS];
        let (bound, count) = (self.interpolate)(k, matrix, &mut coefficients);
        Polynomial {
            bound,
            count,
            coefficients,
        }
    }

    pub fn list(&self, k: usize, matrix: &[u8]) -> List {
        let mut rows = [0; MOST_ROWS * MOST_POSITIONS];
        let mut scores = [0; MOST_ROWS];
        let count = (self.list)(k, matrix, &mut rows, &mut scores);
        List {
            count,
            rows,
            scores,
        }
    }

    /// Ends the run unless the others have the same polynomial and list; answers these.
    pub fn agrees_with(&self, others: &[Program], k: usize, matrix: &[u8]) -> (Polynomial, List) {
        let (polynomial, list) = (self.polynomial(k, matrix), self.list(k, matrix));
        for other in others {
            other.found(
                "polynomial",
                matrix,
                &polynomial,
                &other.polynomial(k, matrix),
            );
            other.found("list", matrix, &list, &other.list(k, matrix));
        }
        (polynomial, list)
    }

    /// Ends the run unless this program found what was expected.
    pub fn found<T: Debug + PartialEq>(&self, what: &str, matrix: &[u8], expected: &T, found: &T) {
        if expected != found {
            eprintln!("{}: {what} differs on {matrix:?}", self.name);
            eprintln!("expected: {expected:?}");
            eprintln!("found: {found:?}");
            exit(1);
        }
    }
}

/// A program whose entries have the public interface.
macro_rules! entries {
    ($name:literal, $interpolate:path, $list:path) => {
        Program {
            name: $name,
            interpolate: |k, matrix, out| {
                let n = matrix.len() / SYMBOLS;
                let answer = $interpolate(n, k, GREATEST_LIMIT, matrix, out);
                (answer.bound.into(), answer.count.into())
            },
            list: |k, matrix, rows, scores| {
                let n = matrix.len() / SYMBOLS;
                let answer = $list(n, k, GREATEST_LIMIT, matrix, rows, scores);
                answer.count.into()
            },
        }
    };
}

pub const PROVED: Program = entries!(
    "proved",
    kv::lent::interpolate,
    kv::lent::list_of_multiplicities
);

pub const SECOND: Program = entries!(
    "second program",
    second::interpolation::interpolate,
    second::list::list_of_multiplicities
);

pub const PLAIN: Program = Program {
    name: "plain Rust",
    interpolate: baseline::interpolate,
    list: baseline::list,
};

pub const PACKED: Program = Program {
    name: "packed Rust",
    interpolate: |k, matrix, out| {
        let bound = packed::polynomial(k - 1, matrix, out);
        (bound.degree, bound.count)
    },
    list: packed::list,
};
