//! A tag as it was read, with what is wrong with it.

use crate::check::{self, Item};
use crate::tag::Tag;
use kv::Refusal;
use std::fmt::{Display, Formatter, Result as Written};

/// What is wrong, and in which line of a text.
#[derive(Debug)]
pub struct Fault {
    pub line: Option<usize>,
    pub why: String,
}

impl Display for Fault {
    fn fmt(&self, formatter: &mut Formatter<'_>) -> Written {
        match self.line {
            Some(line) => write!(formatter, "line {line}: {}", self.why),
            None => write!(formatter, "{}", self.why),
        }
    }
}

#[derive(Default)]
pub struct Reading {
    /// Where there are faults, what could be read.
    pub tag: Tag,
    /// The line of a text that each item stands in. Bytes have none.
    pub lines: Vec<(Item, usize)>,
    pub faults: Vec<Fault>,
}

impl Reading {
    pub fn line_of(&self, item: Item) -> Option<usize> {
        let found = self.lines.iter().rfind(|(other, _)| *other == item);
        found.map(|&(_, line)| line)
    }

    /// The tag, also one that the program refuses.
    pub fn tag(self) -> Result<Tag, Vec<Fault>> {
        match self.faults.is_empty() {
            true => Ok(self.tag),
            false => Err(self.faults),
        }
    }

    /// The tag, if the program does not refuse it. The faults stand by their lines. Of a text that
    /// was not wholly read the cost is not known.
    pub fn checked(mut self) -> Result<Tag, Vec<Fault>> {
        let whole = self.faults.is_empty();
        for check::Fault { item, refusal, why } in check::faults(&self.tag) {
            if whole || refusal != Refusal::Cost {
                let line = self.line_of(item);
                self.faults.push(Fault { line, why });
            }
        }
        self.faults.sort_by_key(|fault| fault.line);
        self.tag()
    }
}
