//! What the comparisons of both list entries share.

use crate::call::Call;
use crate::entry::{Entry, Program};
use crate::lines::Line;
use crate::tally::{suffices, Named};
use kv::lent::Answer;
use second::bound::{cost_and_bound, cost_of_entry, GREATEST_LIMIT};
use second::field::SYMBOLS;
use second::list::MOST_ROWS;
use tags::{hard_word, ERASED};

/// A call of these sizes with room for a list.
pub fn with_room(n: usize, k: usize) -> Call {
    Call {
        room: MOST_ROWS * k,
        room_for_scores: MOST_ROWS,
        ..Call::of_sizes(n, k)
    }
}

/// The sum, over positions, of the entry at the word's symbol.
pub fn score(matrix: &[u8], word: &[u8]) -> usize {
    let columns = matrix.chunks(SYMBOLS).zip(word);
    let entries = columns.map(|(column, &symbol)| usize::from(column[usize::from(symbol)]));
    entries.sum()
}

pub fn bound(k: usize, matrix: &[u8]) -> usize {
    cost_and_bound(matrix.len() / SYMBOLS, k, matrix)
        .bound
        .into()
}

/// Whether a column of reliabilities or of a matrix has nothing but zeros.
fn has_erased_mark<T: Copy + Into<u16>>(numbers: &[T]) -> bool {
    let is_erased = |column: &[T]| column.iter().all(|&number| number.into() == 0);
    numbers.chunks(SYMBOLS).any(is_erased)
}

/// What the lists that were compared had in them.
#[derive(Default)]
pub struct Seen {
    pub lists: usize,
    pub lists_of_many: usize,
    pub longest: usize,
    pub equal_scores: usize,
    pub scores_just_above: usize,
    pub scores_at_bound: usize,
    pub lists_with_erased_marks: usize,
}

impl Seen {
    pub fn list(&mut self, call: &Call, answer: Answer, scores: &[u16]) {
        let Some(listed) = scores.get(..answer.count.into()) else {
            return;
        };
        let erased = has_erased_mark(&call.reliabilities) || has_erased_mark(&call.symbols);
        self.lists += usize::from(!listed.is_empty());
        self.lists_with_erased_marks += usize::from(!listed.is_empty() && erased);
        self.lists_of_many += usize::from(listed.len() > 1);
        self.longest = self.longest.max(listed.len());
        let ties = listed.windows(2).filter(|pair| pair[0] == pair[1]);
        self.equal_scores += ties.count();
    }

    pub fn word(&mut self, k: usize, matrix: &[u8], word: &[u8]) {
        let (score, bound) = (score(matrix, word), bound(k, matrix));
        self.scores_at_bound += usize::from(score == bound);
        self.scores_just_above += usize::from(score == bound + 1);
    }

    fn by_name(&self) -> Named<7> {
        [
            ("lists with rows", self.lists),
            ("with several", self.lists_of_many),
            ("rows in the longest", self.longest),
            ("equal scores", self.equal_scores),
            ("scores just above the bound", self.scores_just_above),
            ("scores at the bound", self.scores_at_bound),
            ("with erased marks", self.lists_with_erased_marks),
        ]
    }

    /// Says what was seen. A run fails that saw too little of something.
    pub fn suffices(&self, least: &Seen) {
        suffices(self.by_name(), least.by_name());
    }
}

const E: u8 = ERASED;

/// A word, its multiplicity at each symbol, k, and the list: each row's score, then its message.
type Written = (&'static [u8], u8, usize, &'static [&'static [u16]]);

const WORDS: [Written; 12] = [
    (&[1, 1, 1], 1, 2, &[&[3, 1, 0]]),
    (&[1, 1, 2], 1, 2, &[]),
    (&[1, 1, 1, 2], 1, 2, &[&[3, 1, 0]]),
    (&[1, 1, 1], 0, 2, &[]),
    (
        &[0, 5, 0, 0, 4, 0, 0, 3, 0, 0, 2, 0, 0, 1, 0],
        4,
        7,
        &[&[40, 0, 0, 0, 0, 0, 0, 0]],
    ),
    (&[0, 5, 0, 0, 4, 0, 0, 3, 0, 0, 2, 0, 0, 1, 8], 4, 7, &[]),
    (
        &[0, 5, 0, 0, 4, 0, 0, 3, 0, 0, 2, 0, 0, 1, 0],
        5,
        7,
        &[&[50, 0, 0, 0, 0, 0, 0, 0]],
    ),
    (&[0, 5, 0, 0, 4, 0, 0, 3, 0, 0, 2, 0, 0, 1, 8], 5, 7, &[]),
    (&[1, 1, 1, E], 1, 2, &[&[3, 1, 0]]),
    (&[E, E, E], 4, 2, &[]),
    (
        &[0, 0, E, 0, E, E, 0, E, E, 0, E, 0, E, E, 0],
        4,
        7,
        &[&[28, 0, 0, 0, 0, 0, 0, 0]],
    ),
    (&[0, 0, E, 0, E, E, 0, E, E, 0, E, 0, E, E, E], 4, 7, &[]),
];

/// Puts into a call what the entry takes for a matrix with m at the symbols of a word.
type PutWord = fn(&mut Call, u8, Vec<u8>);

/// Number and count, and each row's score and message.
fn listed(entry: &Entry, program: Program, call: &Call) -> Vec<u16> {
    let outcome = entry.outcome(program, call);
    let (answer, memory) = (outcome.answer, outcome.memory);
    let mut numbers = vec![answer.number, answer.count];
    let rows = memory.out.part().chunks(call.k).zip(memory.scores.part());
    for (message, &score) in rows.take(answer.count.into()) {
        numbers.push(score);
        numbers.extend(message.iter().copied().map(u16::from));
    }
    numbers
}

/// What the documents say of single lists, also with erased marks, and that a cost at the limit is
/// taken.
pub fn lines(entry: &Entry, program: Program, put: PutWord) -> Vec<Line> {
    let answered = |word: &[u8], m: u8, k: usize, limit: usize| {
        let mut call = Call {
            limit,
            ..with_room(word.len(), k)
        };
        put(&mut call, m, hard_word(word, m));
        listed(entry, program, &call)
    };
    let line = |(word, m, k, rows): Written| Line {
        text: format!("the list of word {word:?}, each {m} times, k {k}"),
        written: [&[0, rows.len() as u16], rows.concat().as_slice()].concat(),
        answered: answered(word, m, k, GREATEST_LIMIT),
    };
    let cost = 3 * cost_of_entry(1);
    let too_dear = Line {
        text: format!("the list of a word of cost {cost} with limit one less"),
        written: vec![7, 0],
        answered: answered(&[1, 1, 2], 1, 2, cost - 1),
    };
    let just_paid = Line {
        text: format!("the list of a word of cost {cost} with that limit"),
        written: vec![0, 0],
        answered: answered(&[1, 1, 2], 1, 2, cost),
    };
    let words = WORDS.into_iter().map(line);
    words.chain([too_dear, just_paid]).collect()
}
