//! The calls of one entry, by both programs.

use crate::call::{Call, Memory, Outcome};
use crate::entry::{Entry, Program};
use crate::faults::{Choice, Made, Reach};
use crate::lists::Seen;
use crate::sizes::Sizes;
use crate::tally::Tally;
use kv::lent::Answer;
use kv::Refusal;
use std::process::exit;
use tags::Random;

const MOST_SPARE_ROOM: usize = 20;
/// So many in all, at least, where not every choice is made with every other.
const NUMBERS_FAR: usize = 100;

pub struct Comparison {
    entry: &'static Entry,
    pub random: Random,
    pub tally: Tally,
    pub seen: Seen,
}

type Contents = fn(&Made, &mut Random) -> Vec<Made>;

impl Comparison {
    pub fn new(entry: &'static Entry, seed: u64) -> Self {
        Comparison {
            entry,
            random: Random::new(seed),
            tally: Tally::new(entry.name),
            seen: Seen::default(),
        }
    }

    fn differ(&self, call: &Call, first: (&str, &Outcome), second: (&str, &Outcome)) -> ! {
        eprintln!("{} differs on {call:?}", self.entry.name);
        for (name, outcome) in [first, second] {
            eprintln!("{name}: {outcome:?}");
        }
        exit(1);
    }

    /// Ends the run unless both programs answer the same and leave the same in lent memory, and
    /// unless a refused call answers no more than number and place and changes no lent memory.
    pub fn compare(&mut self, call: &Call) -> Outcome {
        let lent = Memory::lent_to(call);
        let proved = self.entry.outcome_in(Program::Proved, call, lent.clone());
        let second = self.entry.outcome_in(Program::Second, call, lent.clone());
        if proved != second {
            let (proved, second) = (("proved library", &proved), ("second program", &second));
            self.differ(call, proved, second);
        }
        let Outcome { answer, memory } = &proved;
        if answer.number != 0 {
            let bare = Outcome {
                answer: Answer {
                    number: answer.number,
                    place: answer.place,
                    ..Answer::default()
                },
                memory: lent,
            };
            if proved != bare {
                self.differ(call, ("answered", &proved), ("refused", &bare));
            }
        }
        self.tally.call(answer.number, answer.count);
        self.seen.list(call, *answer, memory.scores.part());
        proved
    }

    /// Ends the run, moreover, unless the refusal is that of the faults which were put in, and a
    /// call without any tells what it is to tell.
    pub fn compare_made(&mut self, made: &Made) {
        let answer = self.compare(&made.call).answer;
        let (refusal, faults) = (made.refusal(), made.every_fault());
        let told = made.value.filter(|_| refusal.is_none());
        if answer.refusal() != refusal || told.is_some_and(|value| value != answer.value) {
            eprintln!("{} answers {answer:?} to {:?}", self.entry.name, made.call);
            eprintln!("the faults in it: {faults:?}; to be told: {told:?}");
            exit(1);
        }
        self.tally.faults(&faults);
    }

    /// A call that has no fault, with some more room than it asks for.
    pub fn compare_good(&mut self, mut call: Call) {
        call.room += self.random.between(0, MOST_SPARE_ROOM);
        call.room_for_scores += self.random.between(0, MOST_SPARE_ROOM);
        self.compare_made(&Made::new(call));
    }

    fn choose(&mut self, made: &Made, choices: &[(&Choice, Reach)], contents: Contents) {
        let Some(((choice, reach), others)) = choices.split_first() else {
            for made in contents(made, &mut self.random) {
                self.compare_made(&made);
            }
            return;
        };
        for made in choice.made(*reach, made) {
            self.choose(&made, others, contents);
        }
    }

    /// Calls of these sizes, with every choice within its reach, together with every other.
    fn together(
        &mut self,
        n: usize,
        k: usize,
        reach: impl FnMut(&Choice) -> Reach,
        contents: Contents,
    ) {
        let sizes = (!self.entry.sizes.allow((n, k))).then_some(Refusal::Sizes);
        let made = Made::new(Call::of_sizes(n, k)).with(sizes, |_| ());
        let reaches: Vec<Reach> = self.entry.choices.iter().map(reach).collect();
        let choices: Vec<(&Choice, Reach)> = self.entry.choices.iter().zip(reaches).collect();
        self.choose(&made, &choices, contents);
    }

    /// Every fault that a call can have: alone, with others, and on both sides of where it begins.
    pub fn faults(&mut self) {
        let (sizes, choices) = (self.entry.sizes, self.entry.choices);
        let contents = self.entry.input.contents;
        for (n, k) in sizes.small() {
            self.together(n, k, |_| Reach::Around, contents);
        }
        let is_much = matches!(sizes, Sizes::Both) && choices.len() > 2;
        for (n, k) in sizes.huge() {
            let reach = |choice: &Choice| match choice.fault {
                Refusal::Room if is_much => Reach::Right,
                _ => Reach::Around,
            };
            self.together(n, k, reach, contents);
        }
        for (n, k) in sizes.allowed() {
            for far in choices {
                self.beyond(n, k, far, Reach::Far);
            }
            self.together(n, k, |_| Reach::Right, self.entry.input.each_place);
        }
    }

    /// One choice far from the right number, the others being right.
    fn beyond(&mut self, n: usize, k: usize, far: &Choice, out: Reach) {
        let reach = |choice: &Choice| match std::ptr::eq(choice, far) {
            true => out,
            false => Reach::Right,
        };
        self.together(n, k, reach, self.entry.input.contents);
    }

    /// Faults as above, where there are too many choices for every one with every other: one number
    /// of each choice, once for sizes that are refused and so many times for those that are allowed.
    pub fn some_faults(&mut self, times: usize) {
        let (sizes, choices) = (self.entry.sizes, self.entry.choices);
        let contents = self.entry.input.contents;
        let mut picks = Random::new(times as u64);
        let mut pick = || picks.between(0, u16::MAX.into());
        for pair in [sizes.small(), sizes.huge()].concat() {
            let times = if sizes.allow(pair) { times } else { 1 };
            for _ in 0..times {
                let reach = |_: &Choice| match pick() % 2 {
                    0 => Reach::Right,
                    _ => Reach::OneAround(pick()),
                };
                self.together(pair.0, pair.1, reach, contents);
            }
        }
        let allowed = sizes.allowed();
        for &(n, k) in &allowed {
            for _ in 0..=NUMBERS_FAR / allowed.len() {
                let far = &choices[pick() % choices.len()];
                self.beyond(n, k, far, Reach::OneFar(pick()));
            }
            self.together(n, k, |_| Reach::Right, self.entry.input.each_place);
        }
    }

    /// Says what was compared. A run fails that compared too little or missed a fault.
    pub fn finish(&self, least_calls: usize) {
        self.tally.finish(least_calls, self.entry.refusals);
    }
}
