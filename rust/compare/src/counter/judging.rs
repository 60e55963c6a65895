//! The calls of one of the counter's entries, by both programs.

use crate::counter::case::{Case, Memory};
use crate::counter::entry::{Entry, REFUSALS};
use crate::entry::Program;
use crate::faults::first_of;
use crate::tally::{suffices, Named, Tally};
use kv::lent::Judgement;
use std::process::exit;
use tags::Random;

/// What the calls that were compared had in them.
#[derive(Default)]
pub struct Seen {
    /// Calls that were not refused, by the value that they answer.
    pub values: [usize; 4],
    pub leads_reached: usize,
    pub leads_missed: usize,
    pub equal_scores: usize,
    pub first_messages_differ: usize,
    pub far_places: usize,
}

impl Seen {
    fn call(&mut self, case: &Case, answer: &Judgement) {
        self.far_places += usize::from(answer.place > u16::MAX.into());
        if answer.number != 0 {
            return;
        }
        self.values[usize::from(answer.value)] += 1;
        let [first, second] = [case.first, case.second].map(|p| p.first_message());
        if first.is_some() && second.is_some() && first != second {
            self.first_messages_differ += 1;
            return;
        }
        let judged = match first {
            Some(_) => case.first.rows,
            None => case.second.rows,
        };
        let difference = judged.difference();
        self.equal_scores += usize::from(difference == Some(0));
        self.leads_reached += usize::from(difference == Some(case.lead));
        self.leads_missed += usize::from(difference.map(|d| d + 1) == Some(case.lead));
    }

    fn by_name(&self) -> Named<9> {
        let [zero, one, two, three] = self.values;
        [
            ("value 0", zero),
            ("value 1", one),
            ("value 2", two),
            ("value 3", three),
            ("leads just reached", self.leads_reached),
            ("just missed", self.leads_missed),
            ("equal first scores", self.equal_scores),
            ("first messages that differ", self.first_messages_differ),
            ("places beyond sixteen bits", self.far_places),
        ]
    }
}

pub struct Judging {
    entry: &'static Entry,
    pub random: Random,
    tally: Tally,
    seen: Seen,
}

impl Judging {
    pub fn new(entry: &'static Entry, seed: u64) -> Self {
        Judging {
            entry,
            random: Random::new(seed),
            tally: Tally::new(entry.name),
            seen: Seen::default(),
        }
    }

    fn differ(&self, case: &Case, first: (&str, Judgement), second: (&str, Judgement)) -> ! {
        eprintln!("{} differs on {case:?}", self.entry.name);
        for (name, answer) in [first, second] {
            eprintln!("{name}: {answer:?}");
        }
        exit(1);
    }

    /// Ends the run unless both programs answer the same, and unless a refused call answers no more
    /// than number and place.
    pub fn compare(&mut self, case: &Case) -> Judgement {
        let lent = Memory::lent_to(case);
        let proved = self.entry.answer_in(Program::Proved, case, &lent);
        let second = self.entry.answer_in(Program::Second, case, &lent);
        if proved != second {
            let (proved, second) = (("proved library", proved), ("second program", second));
            self.differ(case, proved, second);
        }
        let Judgement { place, number, .. } = proved;
        let bare = Judgement {
            place,
            number,
            ..Judgement::default()
        };
        if number != 0 && proved != bare {
            self.differ(case, ("answered", proved), ("refused", bare));
        }
        self.tally.call(number, proved.count);
        self.seen.call(case, &proved);
        proved
    }

    /// Ends the run, moreover, unless the refusal is that of the faults which were put in.
    pub fn compare_made(&mut self, case: &Case) {
        let answer = self.compare(case);
        let faults = self.entry.faults(case);
        if answer.refusal() != first_of(&faults) {
            eprintln!("{} answers {answer:?} to {case:?}", self.entry.name);
            eprintln!("the faults in it: {faults:?}");
            exit(1);
        }
        self.tally.faults(&faults);
    }

    /// Says what was compared. A run fails that compared too little, missed a fault or saw too
    /// little of something.
    pub fn finish(&self, least_calls: usize, least: &Seen) {
        self.tally.finish(least_calls, &REFUSALS);
        suffices(self.seen.by_name(), least.by_name());
    }
}
