use crate::call::Call;
use crate::comparison::Comparison;
use crate::contents::MATRIX;
use crate::entry::Entry;
use crate::faults::{length, LIMIT, ROOM_FOR_ROWS, ROOM_FOR_SCORES};
use crate::lines::hold;
use crate::lists::{bound, lines, score, with_room, Seen};
use crate::sizes::{looks_like, with_entry, Sizes};
use second::bound::{cost, GREATEST_LIMIT, GREATEST_MULTIPLICITY};
use second::field::SYMBOLS;
use second::weights::WHOLE;
use tags::{
    close_codewords, hard_word, hard_words, matrix_of, multiplicity, paired, random_codeword,
    random_matrix, soft_weights, with_erased_marks, with_wrong_marks, within_cost,
    words_of_one_more,
};

const LEAST_CALLS: usize = 360_000;
const LEAST_SEEN: Seen = Seen {
    lists: 6_500,
    lists_of_many: 1_800,
    longest: 17,
    equal_scores: 3_600,
    scores_just_above: 2_000,
    scores_at_bound: 2_600,
    lists_with_erased_marks: 800,
};
const SEED: u64 = 6;
const RANDOM_MATRICES: usize = 5;
const WORN_TAGS: usize = 20;
const MOST_WORDS_TOGETHER: usize = 10;
const MATRICES_AT_BOUND: usize = 15;
const MOST_STEPS: usize = 200;

pub static ENTRY: Entry = Entry {
    name: "list of multiplicities",
    proved: |call, lent| {
        let (matrix, rows) = (lent.symbols.part(), lent.out.part_mut());
        let scores = lent.scores.part_mut();
        kv::lent::list_of_multiplicities(call.n, call.k, call.limit, matrix, rows, scores)
    },
    second: |call, lent| {
        let (matrix, rows) = (lent.symbols.part(), lent.out.part_mut());
        let scores = lent.scores.part_mut();
        second::list::list_of_multiplicities(call.n, call.k, call.limit, matrix, rows, scores)
    },
    refusals: &[1, 2, 3, 4, 5, 7],
    sizes: Sizes::Both,
    choices: &[
        LIMIT,
        ROOM_FOR_ROWS,
        ROOM_FOR_SCORES,
        length(|call| SYMBOLS * looks_like(call.n)),
    ],
    input: MATRIX,
};

impl Comparison {
    fn listed(&mut self, k: usize, matrix: Vec<u8>) {
        let cost = cost(&matrix);
        let most = [cost, GREATEST_LIMIT][self.random.between(0, 1)];
        let limit = self.random.between(cost, most);
        let n = matrix.len() / SYMBOLS;
        self.compare_good(Call {
            limit,
            symbols: matrix,
            ..with_room(n, k)
        });
    }

    fn random_lists(&mut self, n: usize, k: usize) {
        self.listed(k, vec![0; SYMBOLS * n]);
        for _ in 0..RANDOM_MATRICES {
            let greatest = multiplicity(&mut self.random);
            let most_cost = self.random.between(0, GREATEST_LIMIT);
            let matrix = random_matrix(&mut self.random, n, greatest, most_cost);
            self.listed(k, matrix);
        }
    }

    /// Hard words and soft ones, with as many wrong marks as may still be read and some more, and
    /// with marks erased.
    fn worn_words(&mut self, n: usize, k: usize) {
        for _ in 0..WORN_TAGS {
            let right = random_codeword(&mut self.random, n, k);
            let wrong = self.random.between(0, (n - k) / 2 + 2);
            let word = with_wrong_marks(&mut self.random, &right, wrong);
            let level = multiplicity(&mut self.random);
            let share = self.random.between(0, WHOLE as usize);
            let soft = soft_weights(&mut self.random, &word, share);
            let erased = self.random.between(0, (n - k) / 2 + 1);
            let faint = with_erased_marks(&mut self.random, &soft, erased);
            let [soft, faint] = [soft, faint].map(|weights| matrix_of(&weights, level.into()));
            for matrix in [hard_word(&word, level), soft, faint] {
                self.seen.word(k, &matrix, &right);
                self.listed(k, matrix);
            }
        }
    }

    /// Several codewords with the same multiplicity, which often have equal scores.
    fn words_together(&mut self, n: usize, k: usize) {
        for count in 2..=MOST_WORDS_TOGETHER {
            let close = close_codewords(&mut self.random, n, k, count);
            let too_long = words_of_one_more(&mut self.random, n, k, count);
            let mut random = || random_codeword(&mut self.random, n, k);
            let any: Vec<Vec<u8>> = (0..count).map(|_| random()).collect();
            for m in 1..=3 {
                for words in [&close, &too_long, &any] {
                    let matrix = hard_words(words, m);
                    let matrix = within_cost(&mut self.random, matrix, GREATEST_LIMIT);
                    self.seen.word(k, &matrix, &words[0]);
                    self.listed(k, matrix);
                }
            }
        }
    }

    /// Sixteen words in pairs and one beside them, raised until they cost too much for any limit.
    fn longest_lists(&mut self) {
        for raised in 0.. {
            let matrix = paired(&mut self.random, raised);
            if cost(&matrix) > GREATEST_LIMIT {
                return;
            }
            self.listed(2, matrix);
        }
    }

    /// From a codeword's own matrix on, entries are lowered and others raised at random; whatever
    /// has the codeword's score at the bound or next to it is compared.
    fn scores_at_bound(&mut self, n: usize, k: usize) {
        let word = random_codeword(&mut self.random, n, k);
        let own = hard_word(&word, GREATEST_MULTIPLICITY);
        let (mut matrix, mut compared) = (own.clone(), 0);
        for _ in 0..MOST_STEPS {
            if compared == MATRICES_AT_BOUND {
                return;
            }
            let (score, bound) = (score(&matrix, &word), bound(k, &matrix));
            if score.abs_diff(bound) <= 1 {
                self.seen.word(k, &matrix, &word);
                self.listed(k, matrix.clone());
                compared += 1;
            }
            matrix = self.step(&own, &matrix, score > bound);
        }
    }

    /// Lowers an entry of the word, or raises one: another's as long as the word is listed.
    fn step(&mut self, own: &[u8], matrix: &[u8], listed: bool) -> Vec<u8> {
        let lower = listed && self.random.between(0, 1) == 0;
        let of_word = lower || !listed;
        let fitting: Vec<usize> = (0..matrix.len())
            .filter(|&place| (own[place] > 0) == of_word)
            .collect();
        let place = fitting[self.random.between(0, fitting.len() - 1)];
        let entry = match lower {
            true => matrix[place].saturating_sub(1),
            false => (matrix[place] + 1).min(GREATEST_MULTIPLICITY),
        };
        let changed = with_entry(matrix, place, entry);
        within_cost(&mut self.random, changed, GREATEST_LIMIT)
    }
}

pub fn compare() {
    let mut comparison = Comparison::new(&ENTRY, SEED);
    comparison.faults();
    for (n, k) in Sizes::Both.allowed() {
        comparison.random_lists(n, k);
        comparison.worn_words(n, k);
        comparison.words_together(n, k);
        comparison.scores_at_bound(n, k);
        comparison.limits_beside_cost(&with_room(n, k), |call, matrix| call.symbols = matrix);
    }
    comparison.longest_lists();
    comparison.finish(LEAST_CALLS);
    comparison.seen.suffices(&LEAST_SEEN);
    hold(ENTRY.name, |program| {
        lines(&ENTRY, program, |call, _, matrix| call.symbols = matrix)
    });
}
