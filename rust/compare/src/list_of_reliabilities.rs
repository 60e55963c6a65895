use crate::call::Call;
use crate::columns::RELIABILITIES;
use crate::comparison::Comparison;
use crate::entry::Entry;
use crate::faults::{length, Made, LEVEL, LIMIT, ROOM_FOR_ROWS, ROOM_FOR_SCORES};
use crate::lines::hold;
use crate::lists::{lines, with_room, Seen};
use crate::sizes::{looks_like, Sizes};
use crate::sums::sum_lines;
use kv::Refusal;
use second::bound::{cost, GREATEST_LIMIT};
use second::field::SYMBOLS;
use second::weights::{GREATEST_LEVEL, LEAST_LEVEL, WHOLE};
use tags::{
    close_codewords, matrix_of, random_codeword, rounded_down, shared_weights, soft_weights,
    with_erased_marks, with_wrong_marks,
};

const LEAST_CALLS: usize = 700_000;
const LEAST_SEEN: Seen = Seen {
    lists: 17_000,
    lists_of_many: 2_500,
    longest: 5,
    equal_scores: 3_800,
    scores_just_above: 1_450,
    scores_at_bound: 3_900,
    lists_with_erased_marks: 4_500,
};
const SEED: u64 = 7;
const WORN_TAGS: usize = 8;
const MOST_WORDS_TOGETHER: usize = GREATEST_LEVEL;

pub static ENTRY: Entry = Entry {
    name: "list of reliabilities",
    proved: |call, lent| {
        let (reliabilities, rows) = (lent.reliabilities.part(), lent.out.part_mut());
        let (n, k, scores) = (call.n, call.k, lent.scores.part_mut());
        kv::lent::list_of_reliabilities(n, k, call.level, call.limit, reliabilities, rows, scores)
    },
    second: |call, lent| {
        let (reliabilities, rows) = (lent.reliabilities.part(), lent.out.part_mut());
        let (n, k, scores) = (call.n, call.k, lent.scores.part_mut());
        second::list::list_of_reliabilities(
            n,
            k,
            call.level,
            call.limit,
            reliabilities,
            rows,
            scores,
        )
    },
    refusals: &[1, 2, 3, 4, 6, 7],
    sizes: Sizes::Both,
    choices: &[
        LEVEL,
        LIMIT,
        ROOM_FOR_ROWS,
        ROOM_FOR_SCORES,
        length(|call| SYMBOLS * looks_like(call.n)),
    ],
    input: RELIABILITIES,
};

impl Comparison {
    /// With limits just below the cost, at it, and somewhere above.
    fn read(&mut self, k: usize, level: usize, weights: &[u16]) {
        let cost = cost(&matrix_of(weights, level));
        let above = self.random.between(cost, GREATEST_LIMIT);
        let with_limit = |limit: usize| Call {
            level,
            limit,
            reliabilities: weights.to_vec(),
            ..with_room(weights.len() / SYMBOLS, k)
        };
        if cost > 0 {
            let too_dear = Made::new(with_limit(cost - 1));
            self.compare_made(&too_dear.with([Refusal::Cost], |_| ()));
        }
        self.compare_good(with_limit(cost));
        self.compare_good(with_limit(above));
    }

    /// At every level, with what is seen of the right word.
    fn worn_tag(&mut self, k: usize, right: &[u8], weights: &[u16]) {
        for level in LEAST_LEVEL..=GREATEST_LEVEL {
            self.seen.word(k, &matrix_of(weights, level), right);
            self.read(k, level, weights);
        }
    }

    /// Soft words with as many wrong marks as may still be read and some more, also rounded down,
    /// and with marks erased.
    fn worn_tags(&mut self, n: usize, k: usize) {
        for _ in 0..WORN_TAGS {
            let right = random_codeword(&mut self.random, n, k);
            let wrong = self.random.between(0, (n - k) / 2 + 2);
            let word = with_wrong_marks(&mut self.random, &right, wrong);
            let share = self.random.between(0, WHOLE as usize);
            let weights = soft_weights(&mut self.random, &word, share);
            let rounded = rounded_down(&mut self.random, &weights);
            self.worn_tag(k, &right, &weights);
            self.worn_tag(k, &right, &rounded);
            self.erased_tag(k, &right);
        }
    }

    /// A clear word with as many marks erased as may still be read, one more or one fewer.
    fn erased_tag(&mut self, k: usize, right: &[u8]) {
        let most = right.len() - k;
        let weights = soft_weights(&mut self.random, right, WHOLE as usize);
        let erased = self.random.between(most.saturating_sub(1), most + 1);
        let weights = with_erased_marks(&mut self.random, &weights, erased);
        self.worn_tag(k, right, &weights);
    }

    /// Codewords that share each position evenly, which often have equal scores.
    fn codewords_together(&mut self, n: usize, k: usize) {
        for count in 2..=MOST_WORDS_TOGETHER {
            let close = close_codewords(&mut self.random, n, k, count);
            let mut random = || random_codeword(&mut self.random, n, k);
            let any: Vec<Vec<u8>> = (0..count).map(|_| random()).collect();
            for weights in [shared_weights(&close), shared_weights(&any)] {
                for level in LEAST_LEVEL..=GREATEST_LEVEL {
                    self.read(k, level, &weights);
                }
            }
        }
    }
}

/// The weights that give a word's matrix at the level of its multiplicity, at level 1 where that
/// is 0.
fn put_weights(call: &mut Call, m: u8, matrix: Vec<u8>) {
    let weight = |&entry: &u8| match (m, entry) {
        (0, _) => WHOLE as u16 / SYMBOLS as u16,
        (_, 0) => 0,
        _ => WHOLE as u16,
    };
    call.level = m.max(1).into();
    call.reliabilities = matrix.iter().map(weight).collect();
}

pub fn compare() {
    let mut comparison = Comparison::new(&ENTRY, SEED);
    comparison.faults();
    for (n, k) in Sizes::Both.allowed() {
        comparison.worn_tags(n, k);
        comparison.codewords_together(n, k);
    }
    comparison.finish(LEAST_CALLS);
    comparison.seen.suffices(&LEAST_SEEN);
    hold(ENTRY.name, |program| {
        let mut all = lines(&ENTRY, program, put_weights);
        all.extend(sum_lines(&ENTRY, program));
        all
    });
}
