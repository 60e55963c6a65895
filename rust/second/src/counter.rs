//! The counter: what is done with one list of rows, or with two.

use crate::code::{sizes_allowed, MOST_POSITIONS};
use crate::field::GREATEST_SYMBOL;
use crate::refusal::{refuse, refuse_found, symbol_above, Refusal};
use crate::weights::{GREATEST_LEVEL, LEAST_LEVEL};
use std::cmp::Reverse;
use std::collections::BTreeSet;

/// What the counter's entries answer. `number` is the refusal's number, 0 where there is none; where
/// there is one, every field but `place` is 0.
#[derive(Clone, Copy, Debug, Default, PartialEq, Eq)]
pub struct Verdict {
    pub place: u64,
    pub number: u16,
    pub value: u16,
    pub count: u16,
}

const OPEN: u16 = 1;
const ASK: u16 = 2;
const NOTHING: u16 = 3;

/// A list as it comes in: the symbols of its rows, and a score for each row.
#[derive(Clone, Copy)]
pub struct List<'a> {
    pub rows: &'a [u8],
    pub scores: &'a [u16],
}

/// A list with the settings of its photograph.
#[derive(Clone, Copy)]
pub struct Photograph<'a> {
    pub n: usize,
    pub k: usize,
    pub level: usize,
    pub list: List<'a>,
}

/// A message and its score.
type Row = (Vec<u8>, u16);

/// By falling score, equal scores by f_0, then f_1 and so on.
fn in_list_order(rows: &[Row]) -> Vec<Row> {
    let mut ordered = rows.to_vec();
    ordered.sort_by_key(|(message, score)| (Reverse(*score), message.clone()));
    ordered
}

fn repeats_a_message(rows: &[Row]) -> bool {
    let messages: BTreeSet<&Vec<u8>> = rows.iter().map(|(message, _)| message).collect();
    messages.len() < rows.len()
}

impl List<'_> {
    /// The rows, of k symbols that are not 0: refused where they are not k symbols a score, not in
    /// list order, or repeat a message.
    fn taken_apart(&self, k: usize) -> Result<Vec<Row>, Refusal> {
        if self.rows.len() as u128 != k as u128 * self.scores.len() as u128 {
            return Err(Refusal::Length);
        }
        let messages = self.rows.chunks(k).map(<[u8]>::to_vec);
        let rows: Vec<Row> = messages.zip(self.scores.iter().copied()).collect();
        match in_list_order(&rows) != rows || repeats_a_message(&rows) {
            true => Err(Refusal::Length),
            false => Ok(rows),
        }
    }
}

fn refuse_symbols(symbols: &[u8]) -> Result<(), Refusal> {
    refuse_found(symbol_above(GREATEST_SYMBOL, symbols))
}

/// Open if there is one row, or if the first score leads the second by at least the lead; Nothing
/// for no rows; else Ask.
fn judged(rows: &[Row], lead: usize) -> u16 {
    match rows {
        [] => NOTHING,
        [_] => OPEN,
        [(_, first), (_, second), ..] if usize::from(first - second) >= lead => OPEN,
        _ => ASK,
    }
}

/// What is done, and by which list, the first or the second, it is judged.
type Judged = Result<(u16, u16), Refusal>;

fn of_one(k: usize, list: List, lead: usize) -> Judged {
    refuse(!sizes_allowed(MOST_POSITIONS, k), Refusal::Sizes)?;
    refuse(lead == 0, Refusal::Setting)?;
    let rows = list.taken_apart(k)?;
    refuse_symbols(list.rows)?;
    Ok((judged(&rows, lead), 1))
}

fn settings(photograph: &Photograph) -> [usize; 3] {
    [photograph.n, photograph.k, photograph.level]
}

fn of_two(first: Photograph, second: Photograph, lead: usize) -> Judged {
    let both = [first, second];
    let allowed = |p: &Photograph| sizes_allowed(p.n, p.k);
    refuse(!both.iter().all(allowed), Refusal::Sizes)?;
    let has_level = |p: &Photograph| (LEAST_LEVEL..=GREATEST_LEVEL).contains(&p.level);
    refuse(!both.iter().all(has_level) || lead == 0, Refusal::Setting)?;
    refuse(settings(&first) != settings(&second), Refusal::Setting)?;
    let rows = first.list.taken_apart(first.k)?;
    let others = second.list.taken_apart(second.k)?;
    refuse_symbols(&[first.list.rows, second.list.rows].concat())?;
    Ok(match (rows.first(), others.first()) {
        (Some((message, _)), Some((other, _))) if message != other => (ASK, 1),
        (Some(_), _) => (judged(&rows, lead), 1),
        (None, _) => (judged(&others, lead), 2),
    })
}

fn refused(refusal: Refusal) -> Verdict {
    Verdict {
        number: refusal.number(),
        place: refusal.place() as u64,
        ..Verdict::default()
    }
}

fn verdict(judged: Judged) -> Verdict {
    match judged {
        Ok((value, _)) => Verdict {
            value,
            ..Verdict::default()
        },
        Err(refusal) => refused(refusal),
    }
}

/// The part that is handed back: of which list, and how many symbols from its start.
fn part(judged: Judged, k: usize) -> Verdict {
    match judged {
        Ok((OPEN, list)) => Verdict {
            value: list,
            count: k as u16,
            ..Verdict::default()
        },
        Ok(_) => Verdict::default(),
        Err(refusal) => refused(refusal),
    }
}

pub fn judge(k: usize, list: List, lead: usize) -> Verdict {
    verdict(of_one(k, list, lead))
}

pub fn open(k: usize, list: List, lead: usize) -> Verdict {
    part(of_one(k, list, lead), k)
}

pub fn judge_both(first: Photograph, second: Photograph, lead: usize) -> Verdict {
    verdict(of_two(first, second, lead))
}

pub fn open_both(first: Photograph, second: Photograph, lead: usize) -> Verdict {
    part(of_two(first, second, lead), first.k)
}
