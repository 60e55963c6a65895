//! `include/kv.h` and this crate have the same limits, refusals and verdicts by the same names, and
//! the same version.

use kv::lent::Answer;
use kv::Verdict;
use std::collections::BTreeMap;

const HEADER: &str = include_str!("../../../include/kv.h");

type Numbers = BTreeMap<String, usize>;

/// A name and its number, of an enum or of a macro.
fn numbered(line: &str) -> Option<(String, usize)> {
    let words: Vec<&str> = line.split_whitespace().collect();
    let (name, number) = match words[..] {
        ["#define", name, number] => (name, number),
        [name, "=", number, ..] => (name, number.trim_end_matches(',')),
        _ => return None,
    };
    Some((name.to_string(), number.parse().ok()?))
}

/// As C has a name that Rust has as a case, behind what C's begin with.
fn in_c(begins: &str, case: impl std::fmt::Debug) -> String {
    let case = format!("{case:?}");
    let name = case.split('(').next().unwrap_or_default();
    format!("{begins}{}", name.to_uppercase())
}

macro_rules! limits {
    ($($name:ident)*) => {
        [$((concat!("KV_", stringify!($name)).to_string(), usize::from(kv::$name))),*]
    };
}

fn refusals() -> impl Iterator<Item = (String, usize)> {
    let refusal = |number| {
        let answer = Answer {
            number,
            ..Answer::default()
        };
        answer.refusal().map(|case| in_c("KV_REFUSED_", case))
    };
    (1..=10).filter_map(move |number| Some((refusal(number)?, number.into())))
}

fn verdicts() -> impl Iterator<Item = (String, usize)> {
    let verdicts = [Verdict::Open, Verdict::Ask, Verdict::Nothing];
    verdicts.into_iter().map(|case| in_c("KV_", case)).zip(1..)
}

fn version() -> impl Iterator<Item = (String, usize)> {
    let parts = env!("CARGO_PKG_VERSION").split('.');
    let names = ["MAJOR", "MINOR", "PATCH"].map(|part| format!("KV_VERSION_{part}"));
    let number = |part: &str| part.parse().expect("a version of three numbers");
    names.into_iter().zip(parts.map(number))
}

#[test]
fn the_header_has_the_same_names_and_numbers() {
    let limits = limits!(
        SYMBOLS POSITIONS ENTRIES WHOLE LEVEL LIMIT STEPS COEFFICIENTS MONOMIALS ROWS
    );
    let mut expected: Numbers = limits.into_iter().chain(refusals()).collect();
    expected.extend(verdicts());
    expected.extend(version());
    expected.insert("KV_ACCEPTED".to_string(), 0);
    let found: Numbers = HEADER.lines().filter_map(numbered).collect();
    assert_eq!(found, expected);
}
