//! The list of a tag, by the proved library.

use crate::check;
use crate::tag::Tag;
use kv::{CostAndBound, Refusal, Row};

pub struct List {
    pub rows: Vec<Row>,
    /// Of each row.
    pub codewords: Vec<Vec<u8>>,
    found: CostAndBound,
}

pub fn list(tag: &Tag) -> Result<List, Refusal> {
    let (sizes, settings) = tag.sizes_and_settings();
    let rows = kv::list_of_reliabilities(sizes, settings, &tag.weights())?.rows;
    let codewords = rows.iter().map(|row| kv::encode(sizes, &row.message));
    Ok(List {
        codewords: codewords.collect::<Result<_, _>>()?,
        found: tag.cost_and_bound()?,
        rows,
    })
}

fn digits(message: &[u8]) -> String {
    message.iter().map(|symbol| format!("{symbol:x}")).collect()
}

/// A refusal as the reader program writes it.
fn refused(refusal: &Refusal) -> String {
    format!("refused {} at {}", refusal.number(), refusal.place())
}

/// The list as the reader program writes it.
pub fn program_words(list: &Result<List, Refusal>) -> String {
    let line = |row: &Row| format!("score {} message {}\n", row.score, digits(&row.message));
    match list {
        Ok(List { rows, .. }) => {
            let lines: String = rows.iter().map(line).collect();
            format!("listed {}\n{lines}", rows.len())
        }
        Err(refusal) => format!("{}\n", refused(refusal)),
    }
}

impl List {
    fn ticket(&self, index: usize) -> String {
        let Row { score, message } = &self.rows[index];
        let (ticket, message) = (index + 1, digits(message));
        let above = score - self.found.bound;
        let next = self.rows.get(ticket);
        let lead = next.map(|next| format!(", {} ahead of the next", score - next.score));
        let lead = lead.unwrap_or_default();
        format!("ticket {ticket}: {message}, score {score}, {above} above the bound{lead}\n")
    }

    fn verdict(&self) -> String {
        match &self.rows[..] {
            [] => "no ticket: nothing is supported above the bound\n".to_string(),
            [_] => "one ticket: no other is supported above the bound\n".to_string(),
            [first, .., last] => {
                let (count, apart) = (self.rows.len(), first.score - last.score);
                format!("{count} tickets within {apart} of each other: a matter for a person\n")
            }
        }
    }
}

/// The list for people: how far each ticket stands above the bound and leads, or why there is none.
pub fn words(tag: &Tag, list: &Result<List, Refusal>) -> String {
    match list {
        Ok(list) => {
            let (CostAndBound { cost, bound }, limit) = (list.found, tag.settings[3]);
            let tickets: String = (0..list.rows.len())
                .map(|index| list.ticket(index))
                .collect();
            let verdict = list.verdict();
            format!("cost {cost}, limit G {limit}, bound {bound}\n{tickets}{verdict}")
        }
        Err(refusal) => {
            let mut faults = check::faults(tag).into_iter();
            let fault = faults.find(|fault| fault.refusal == *refusal);
            let why = fault.map_or_else(|| refusal.to_string(), |fault| fault.why);
            format!("{}: {why}\n", refused(refusal))
        }
    }
}
