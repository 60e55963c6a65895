//! The counter's entries: how both programs are called, and which faults a call can have.

use crate::counter::case::{Case, Memory};
use crate::entry::Program;
use kv::lent::{self, Judgement};
use kv::Refusal;
use second::counter::{self, List, Photograph, Verdict};

/// The call of an entry in both programs, by the lists that it takes.
enum Calls {
    Alone {
        proved: fn(usize, &[u8], &[u16], usize) -> Judgement,
        second: fn(usize, List, usize) -> Verdict,
    },
    Both {
        proved: fn(kv::Photograph<'_>, kv::Photograph<'_>, usize) -> Judgement,
        second: fn(Photograph, Photograph, usize) -> Verdict,
    },
}

pub struct Entry {
    pub name: &'static str,
    calls: Calls,
}

/// The numbers of the refusals that each of them can give.
pub const REFUSALS: [u16; 4] = [1, 2, 3, 5];

pub static JUDGE: Entry = Entry {
    name: "judge",
    calls: Calls::Alone {
        proved: lent::judge,
        second: counter::judge,
    },
};

pub static OPEN: Entry = Entry {
    name: "open",
    calls: Calls::Alone {
        proved: lent::open,
        second: counter::open,
    },
};

pub static JUDGE_BOTH: Entry = Entry {
    name: "judge both",
    calls: Calls::Both {
        proved: lent::judge_both,
        second: counter::judge_both,
    },
};

pub static OPEN_BOTH: Entry = Entry {
    name: "open both",
    calls: Calls::Both {
        proved: lent::open_both,
        second: counter::open_both,
    },
};

fn in_common(verdict: Verdict) -> Judgement {
    Judgement {
        place: verdict.place,
        number: verdict.number,
        value: verdict.value,
        count: verdict.count,
    }
}

impl Entry {
    fn proved(&self, case: &Case, lent: &Memory) -> Judgement {
        let [first, second] = case.of_library(lent);
        match self.calls {
            Calls::Alone { proved, .. } => {
                proved(first.sizes.k, first.rows, first.scores, case.lead)
            }
            Calls::Both { proved, .. } => proved(first, second, case.lead),
        }
    }

    fn second(&self, case: &Case, lent: &Memory) -> Verdict {
        let [first, other] = case.of_second(lent);
        match self.calls {
            Calls::Alone { second, .. } => second(first.k, first.list, case.lead),
            Calls::Both { second, .. } => second(first, other, case.lead),
        }
    }

    pub fn faults(&self, case: &Case) -> Vec<Refusal> {
        match self.calls {
            Calls::Alone { .. } => case.faults_of_first(),
            Calls::Both { .. } => case.faults_of_both(),
        }
    }

    pub fn answer_in(&self, program: Program, case: &Case, lent: &Memory) -> Judgement {
        match program {
            Program::Proved => self.proved(case, lent),
            Program::Second => in_common(self.second(case, lent)),
        }
    }

    pub fn answer(&self, program: Program, case: &Case) -> Judgement {
        self.answer_in(program, case, &Memory::lent_to(case))
    }
}
