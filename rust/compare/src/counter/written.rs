//! Lists that the library wrote, of two photographs of each tag.

use crate::counter::case::{Case, Settings};
use crate::counter::entry::{JUDGE, JUDGE_BOTH};
use crate::counter::rows::{Rows, NO_ROWS};
use crate::entry::Program;
use crate::sizes::Sizes;
use kv::lent::list_of_reliabilities;
use kv::{LIMIT, POSITIONS, ROWS};
use second::weights::{GREATEST_LEVEL, LEAST_LEVEL, WHOLE};
use std::process::exit;
use std::sync::LazyLock;
use tags::{close_codewords, shared_weights, soft_weights, with_wrong_marks, Random};

const SEED: u64 = 11;
const LEAST_LISTS: usize = 1_000;
const LEAST_OF_MANY: usize = 400;

/// A list that the library wrote, and its settings.
pub struct Written {
    pub settings: Settings,
    pub rows: Rows,
}

impl Written {
    fn new(settings: Settings, weights: &[u16]) -> Self {
        let [n, k, level] = settings;
        let (mut rows, mut scores) = ([0; ROWS * POSITIONS], [0; ROWS]);
        let limit = LIMIT;
        let answer = list_of_reliabilities(n, k, level, limit, weights, &mut rows, &mut scores);
        let count = usize::from(answer.count);
        let messages: Vec<&[u8]> = rows.chunks(k).take(count).collect();
        Written {
            settings,
            rows: Rows::new(&messages, &scores[..count]),
        }
    }
}

/// What a camera gives for the first of two codewords: as much of the other, half as much, or worn
/// marks.
fn weights(random: &mut Random, words: &[Vec<u8>], k: usize) -> Vec<u16> {
    match random.between(0, 2) {
        0 => shared_weights(words),
        1 => shared_weights(&[&words[..1], words].concat()),
        _ => {
            let wrong = random.between(0, (words[0].len() - k) / 2);
            let word = with_wrong_marks(random, &words[0], wrong);
            soft_weights(random, &word, WHOLE as usize / 2)
        }
    }
}

/// The lists of two photographs of a tag of each size at each level.
pub static TAGS: LazyLock<Vec<[Written; 2]>> = LazyLock::new(|| {
    let mut random = Random::new(SEED);
    let mut tags = Vec::new();
    for (n, k) in Sizes::Both.allowed() {
        for level in LEAST_LEVEL..=GREATEST_LEVEL {
            let words = close_codewords(&mut random, n, k, 2);
            let mut photograph = || Written::new([n, k, level], &weights(&mut random, &words, k));
            tags.push([photograph(), photograph()]);
        }
    }
    tags
});

pub fn lists() -> impl Iterator<Item = &'static Written> {
    TAGS.iter().flatten()
}

/// Ends the run unless a list is judged as it is alone where it stands beside itself, before an
/// empty list and after one.
fn judged_as_alone(list: &Written, lead: usize) {
    let [_, k, _] = list.settings;
    let alone = JUDGE.answer(Program::Proved, &Case::alone(k, &list.rows, lead));
    let (rows, none) = (&list.rows, &NO_ROWS);
    for lists in [[rows, rows], [rows, none], [none, rows]] {
        let case = Case::both(list.settings, lists, lead);
        if JUDGE_BOTH.answer(Program::Proved, &case) != alone {
            eprintln!("alone the list is judged as {alone:?}, and otherwise in {case:?}");
            exit(1);
        }
    }
}

pub fn compare() {
    let of_many = lists().filter(|list| list.rows.scores.len() > 1).count();
    let lists: Vec<&Written> = lists().collect();
    for list in &lists {
        for lead in list.rows.leads() {
            judged_as_alone(list, lead);
        }
    }
    if lists.len() < LEAST_LISTS || of_many < LEAST_OF_MANY {
        eprintln!(
            "{} lists, {of_many} with several rows, are too few",
            lists.len()
        );
        exit(1);
    }
    println!(
        "compared judge both: {} lists that the library wrote, {of_many} with several rows, are judged beside themselves and beside an empty one as alone",
        lists.len()
    );
}
