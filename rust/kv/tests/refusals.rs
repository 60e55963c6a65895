//! Each number that an entry may answer, its refusal, and the refusal in words.

use kv::lent::{Answer, Judgement};
use kv::{Refusal, LEVEL, LIMIT, MONOMIALS, POSITIONS, STEPS};
use std::collections::BTreeSet;
use std::error::Error;

/// What the entries answer with this number and place.
fn refused(number: u16, place: u16) -> Option<Refusal> {
    let answer = Answer {
        number,
        place,
        ..Answer::default()
    };
    let judgement = Judgement {
        number,
        place: place.into(),
        ..Judgement::default()
    };
    assert_eq!(answer.refusal(), judgement.refusal());
    answer.refusal()
}

fn words(number: u16, place: u16) -> String {
    let refusal = refused(number, place).expect("0 is no refusal");
    refusal.to_string()
}

#[test]
fn each_number_has_its_refusal_and_each_refusal_its_number() {
    let known = [
        Refusal::Sizes,
        Refusal::Setting,
        Refusal::Length,
        Refusal::Room,
        Refusal::Symbol(7),
        Refusal::Column(7),
        Refusal::Cost,
        Refusal::Zero,
        Refusal::Plan,
        Refusal::Proposal,
    ];
    assert_eq!(refused(0, 7), None);
    for (number, refusal) in (1..).zip(known) {
        assert_eq!(refused(number, 7), Some(refusal));
        assert_eq!(refusal.number(), number);
        let has_place = matches!(number, 5 | 6);
        assert_eq!(refusal.place(), if has_place { 7 } else { 0 });
    }
}

#[test]
fn a_number_that_is_not_known_is_no_other_refusal() {
    for number in [11, 12, 13, 256, u16::MAX] {
        let refusal = refused(number, 7).expect("a refusal");
        assert!(matches!(refusal, Refusal::Unknown { .. }), "{number}");
        assert_eq!((refusal.number(), refusal.place()), (number, 7));
    }
    assert_ne!(refused(11, 7), refused(12, 7));
    assert_ne!(refused(11, 7), refused(11, 8));
}

#[test]
fn a_place_of_a_long_list_is_kept() {
    let place = (1 << 32) + 5;
    let judgement = Judgement {
        number: 5,
        place,
        ..Judgement::default()
    };
    assert_eq!(judgement.refusal(), Some(Refusal::Symbol(place as usize)));
}

#[test]
fn the_reason_is_told_in_words() {
    let symbol = "a symbol or coefficient is above 15, or a multiplicity above 5, at index 20";
    assert_eq!(words(5, 20), symbol);
    let column = "a position's reliabilities sum to more than 4,096, at position 9";
    assert_eq!(words(6, 9), column);
    let room = "the output is too short for all that may be written";
    assert_eq!(words(4, 0), room);
    assert_eq!(words(7, 0), "the matrix costs more than the limit");
    assert_eq!(words(8, 0), "0 has no inverse, or all coefficients are 0");
    let plan = "the plan is not the rule's result for its reliabilities and steps";
    assert_eq!(words(9, 0), plan);
    let proposal = "the polynomial is all zeros, or does not pass through every point of the \
                    matrix with its multiplicity";
    assert_eq!(words(10, 0), proposal);
    let unknown = "the reason is not known to this version: refusal 11, at place 4";
    assert_eq!(words(11, 4), unknown);
}

#[test]
fn no_two_are_told_alike() {
    let all: BTreeSet<String> = (1..=12).map(|number| words(number, 0)).collect();
    assert_eq!(all.len(), 12);
}

#[test]
fn the_words_have_the_limits() {
    let limits = [
        (1, POSITIONS),
        (2, LEVEL),
        (2, LIMIT),
        (2, STEPS),
        (2, MONOMIALS),
        (5, LEVEL),
    ];
    for (number, limit) in limits {
        let words = words(number, 0);
        let numbers: Vec<&str> = words.split(|c: char| !c.is_ascii_digit()).collect();
        assert!(numbers.contains(&&*limit.to_string()), "{words}: {limit}");
    }
}

#[test]
fn a_refusal_is_an_error() {
    let error: Box<dyn Error> = Box::new(kv::inverse(0).unwrap_err());
    assert_eq!(error.to_string(), words(8, 0));
}
