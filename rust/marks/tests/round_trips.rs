//! Tags of every kind, also refused ones, from bytes to text and back.

use kv::{Refusal, LEVEL, LIMIT, POSITIONS, SYMBOLS, WHOLE};
use marks::picture::picture;
use marks::{bytes, check, list, text};
use std::collections::BTreeSet;
use tags::Random;
use tags::{close_codewords, random_codeword, shared_weights, soft_weights, with_erased_marks};

const SEED: u64 = 31;
const TAGS: usize = 300;
const WIDTH: usize = 80;

/// Weights as a camera gives them.
fn camera(random: &mut Random, n: usize, k: usize) -> Vec<u16> {
    if random.happens(2) {
        return shared_weights(&close_codewords(random, n, k, 2));
    }
    let word = random_codeword(random, n, k);
    let soft = soft_weights(random, &word, usize::from(WHOLE) / 2);
    let erased = random.between(0, n / 2);
    with_erased_marks(random, &soft, erased)
}

/// A tag of which at times a setting or a weight is any number.
fn tag(random: &mut Random) -> Vec<u8> {
    let n = random.between(2, POSITIONS);
    let k = random.between(2, n);
    let level = random.between(1, LEVEL);
    let mut settings = [n, k, level, random.between(0, LIMIT)];
    let mut weights = camera(random, n, k);
    if random.happens(3) {
        settings[random.between(0, 3)] = random.between(0, u8::MAX.into());
    }
    weights.resize(SYMBOLS * settings[0], u16::MAX);
    if let Some(weight) = weights.get_mut(random.between(0, 1000)) {
        *weight = random.between(0, u16::MAX.into()) as u16;
    }
    let numbers = weights.into_iter().flat_map(u16::to_le_bytes);
    let settings = settings.into_iter().map(|setting| setting as u8);
    settings.chain(numbers).collect()
}

#[test]
fn tags_come_back_and_are_checked_as_the_library_refuses() -> Result<(), String> {
    let mut random = Random::new(SEED);
    let mut seen = BTreeSet::new();
    for _ in 0..TAGS {
        let given = tag(&mut random);
        let tag = bytes::read(&given)?;
        assert_eq!(bytes::write(&tag), given);
        let written = text::write(&tag);
        let read = text::read(&written).tag().map_err(|faults| faults.len());
        assert_eq!(read.as_ref(), Ok(&tag), "{written}");
        let first = check::faults(&tag).first().map(|fault| fault.refusal);
        assert_eq!(first, list::list(&tag).err(), "{written}");
        assert!(picture("", &tag).lines().all(|line| line.len() <= WIDTH));
        seen.insert(first.map_or(0, Refusal::number));
    }
    assert_eq!(seen, BTreeSet::from([0, 1, 2, 6, 7]));
    Ok(())
}

#[test]
fn texts_with_other_bytes_in_them_are_read_or_refused() {
    let mut random = Random::new(SEED);
    let mut seen = BTreeSet::new();
    for _ in 0..TAGS {
        let tag = bytes::read(&tag(&mut random)).unwrap_or_default();
        let mut other = text::write(&tag).into_bytes();
        for _ in 0..random.between(1, 3) {
            let place = random.between(0, other.len() - 1);
            other[place] = random.between(0, u8::MAX.into()) as u8;
        }
        let read = text::read(&String::from_utf8_lossy(&other)).tag();
        seen.insert(read.is_ok());
        if let Ok(tag) = read {
            let again = text::read(&text::write(&tag)).tag();
            assert_eq!(again.ok(), Some(tag));
        }
    }
    assert_eq!(seen.len(), 2);
}

#[test]
fn a_text_is_brought_into_its_canonical_form() -> Result<(), usize> {
    let free = "\u{feff}G=150 L=1\r\n# two marks\r\nn=02 k=2\r\n0 : C=5 1=70 b=5 2=0\r\n1:4=0";
    let canonical = "n=2     # marks on the tag\nk=2     # symbols of a ticket's message\n\
        L=1     # level\nG=150   # limit on the cost\n\n 0: 1=70 b=5 c=5\n 1: erased\n";
    for text in [free, canonical] {
        let tag = text::read(text).tag().map_err(|faults| faults.len())?;
        assert_eq!(text::write(&tag), canonical);
    }
    Ok(())
}
