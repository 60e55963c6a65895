//! The picture of a tag: a line for each mark, and the list below.

use crate::list::{list, words};
use crate::tag::{Mark, Tag, NAMES};
use kv::WHOLE;

/// The columns that the whole weight of a mark fills.
const COLUMNS: usize = 32;
const WEIGHT_OF_A_COLUMN: usize = WHOLE as usize / COLUMNS;
const LEGEND: &str =
    "= the mark's strongest symbol is the ticket's, . a weaker one is, x none is\n";

/// The symbols, each as wide as its weight, strongest first.
fn bar(mark: &Mark) -> String {
    let (mut bar, mut sum) = (String::new(), 0);
    for (symbol, weight) in mark.ranked() {
        sum += usize::from(weight);
        let end = (sum + WEIGHT_OF_A_COLUMN / 2) / WEIGHT_OF_A_COLUMN;
        let more = end.min(COLUMNS) - bar.len();
        bar.push_str(&format!("{symbol:x}").repeat(more));
    }
    bar
}

/// The two strongest symbols with their weights.
fn strongest(mark: &Mark) -> String {
    let pair = |(symbol, weight)| format!("{symbol:x} {weight}");
    let pairs = mark.ranked().into_iter().take(2).map(pair);
    pairs.collect::<Vec<_>>().join(" ")
}

/// What the mark says of a ticket whose codeword has this symbol.
fn cell(mark: &Mark, symbol: u8) -> char {
    match (mark.0[usize::from(symbol)], mark.strongest()) {
        (_, 0) => ' ',
        (0, _) => 'x',
        (weight, strongest) if weight == strongest => '=',
        _ => '.',
    }
}

fn line(start: &str, bar: &str, strongest: &str, word: &str, cells: &str) -> String {
    let line = format!("{start:>3}  {bar:<COLUMNS$}  {strongest:<13}  {word:<4}  {cells}");
    format!("{}\n", line.trim_end())
}

fn mark_line(number: usize, mark: &Mark, codewords: &[Vec<u8>]) -> String {
    let cells = codewords.iter().map(|word| cell(mark, word[number]));
    let (start, cells) = (number.to_string(), cells.collect::<String>());
    line(&start, &bar(mark), &strongest(mark), mark.word(), &cells)
}

fn marks(tag: &Tag, codewords: &[Vec<u8>]) -> String {
    let scale = format!("a column is a weight of {WEIGHT_OF_A_COLUMN}");
    let tickets = (1..=codewords.len()).map(|ticket| (ticket % 10).to_string());
    let head = line("", &scale, "strongest", "", &tickets.collect::<String>());
    let lines = tag.marks.iter().enumerate();
    let lines = lines.map(|(number, mark)| mark_line(number, mark, codewords));
    let legend = if codewords.is_empty() { "" } else { LEGEND };
    format!("{head}{}{legend}", lines.collect::<String>())
}

/// At most eighty columns wide, but for the name.
pub fn picture(name: &str, tag: &Tag) -> String {
    let settings = NAMES.into_iter().zip(tag.settings);
    let settings = settings.map(|(name, value)| format!("{name} {value}"));
    let settings = settings.collect::<Vec<_>>().join(", ");
    let list = list(tag);
    let codewords = list.as_ref().map_or(&[][..], |list| &list.codewords);
    let (marks, words) = (marks(tag, codewords), words(tag, &list));
    format!("{name}: {settings}\n\n{marks}\n{words}")
}
