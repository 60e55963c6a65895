//! What was compared for one entry.

use kv::Refusal;
use std::collections::{BTreeMap, BTreeSet};
use std::process::exit;

/// A set of faults by their numbers, a bit for each.
type Faults = u16;

/// No input has a symbol that is too great and nothing but zeros.
const NEVER_TOGETHER: [Faults; 1] = [1 << 5 | 1 << 8];

pub struct Tally {
    entry: &'static str,
    calls: usize,
    /// The counts that were answered, summed.
    pub counted: usize,
    by_refusal: BTreeMap<u16, usize>,
    /// The calls with no fault put in, with one, and with several.
    by_faults: [usize; 3],
    together: BTreeSet<Faults>,
}

impl Tally {
    pub fn new(entry: &'static str) -> Self {
        Tally {
            entry,
            calls: 0,
            counted: 0,
            by_refusal: BTreeMap::new(),
            by_faults: [0; 3],
            together: BTreeSet::new(),
        }
    }

    pub fn call(&mut self, number: u16, count: u16) {
        self.calls += 1;
        self.counted += usize::from(count);
        *self.by_refusal.entry(number).or_default() += 1;
    }

    pub fn faults(&mut self, faults: &[Refusal]) {
        self.by_faults[faults.len().min(2)] += 1;
        let numbers = faults.iter().map(|fault| fault.number());
        self.together
            .insert(numbers.fold(0, |set, number| set | 1 << number));
    }

    /// Two faults that were never put in together, or a fault, twice, that was never put in alone.
    fn missed(&self, refusals: &[u16]) -> Option<(u16, u16)> {
        let pairs_of = |&a: &u16| refusals.iter().map(move |&b| (a, b));
        let seen = |&(a, b): &(u16, u16)| {
            let wanted = 1 << a | 1 << b;
            let holds = |&set: &u16| set == wanted || a != b && set & wanted == wanted;
            NEVER_TOGETHER.contains(&wanted) || self.together.iter().any(holds)
        };
        refusals.iter().flat_map(pairs_of).find(|pair| !seen(pair))
    }

    /// Says what was compared. A run fails that compared fewer calls than it should, saw other
    /// refusals than those that the entry can give, or missed a fault alone or two together.
    pub fn finish(&self, least_calls: usize, refusals: &[u16]) {
        let seen: Vec<u16> = self.by_refusal.keys().copied().collect();
        if self.calls < least_calls || seen != [&[0], refusals].concat() {
            eprintln!("{}: {} calls, refusals {seen:?};", self.entry, self.calls);
            eprintln!("at least {least_calls} calls and 0 and {refusals:?} were to be seen");
            exit(1);
        }
        if let Some(missed) = self.missed(refusals) {
            eprintln!("{}: no call had the faults {missed:?}", self.entry);
            exit(1);
        }
        let calls_of = |(number, calls): (&u16, &usize)| format!("{number}: {calls}");
        let by_refusal: Vec<String> = self.by_refusal.iter().map(calls_of).collect();
        let [none, one, several] = self.by_faults;
        println!(
            "compared {}: {} calls equal (by refusal {}; by faults put in: none {none}, one {one}, several {several})",
            self.entry,
            self.calls,
            by_refusal.join(", "),
        );
    }
}

/// What was seen, each by its name, and how often.
pub type Named<const COUNT: usize> = [(&'static str, usize); COUNT];

/// Says what was seen. A run fails that saw too little of something.
pub fn suffices<const COUNT: usize>(seen: Named<COUNT>, least: Named<COUNT>) {
    for ((name, seen), (_, least)) in seen.into_iter().zip(least) {
        if seen < least {
            eprintln!("{name}: {seen}; at least {least} were to be seen");
            exit(1);
        }
    }
    let number_of = |(name, seen)| format!("{name}: {seen}");
    println!("seen: {}", seen.map(number_of).join(", "));
}
