//! A tag as a text that people read and write: settings such as `n=15`, then a line for each mark
//! such as `6: a=2148 c=1948` or `2: erased`. What is not named has no weight, and what stands
//! behind `#` is not read.

use crate::check::Item;
use crate::reading::{Fault, Reading};
use crate::tag::{Mark, Tag, NAMES};
use kv::{LIMIT, POSITIONS, SYMBOLS};

const ABOUT: [&str; NAMES.len()] = [
    "marks on the tag",
    "symbols of a ticket's message",
    "level",
    "limit on the cost",
];
/// Stand for settings that could not be read: nothing else is at fault for them.
const LENIENT: [u8; NAMES.len()] = [POSITIONS as u8, 2, 1, LIMIT as u8];
const MOST_MARKS: usize = u8::MAX as usize;

fn mark_line((number, mark): (usize, &Mark)) -> String {
    let pair = |(symbol, weight)| format!(" {symbol:x}={weight}");
    let pairs: String = mark.ranked().into_iter().map(pair).collect();
    let erased = if pairs.is_empty() { " erased" } else { "" };
    format!("{number:>2}:{pairs}{erased}\n")
}

/// The canonical text: the strongest symbol of a mark first, symbols without weight left out.
pub fn write(tag: &Tag) -> String {
    let settings = NAMES.into_iter().zip(tag.settings).zip(ABOUT);
    let setting = |((name, value), about)| format!("{name}={value:<5} # {about}\n");
    let settings: String = settings.map(setting).collect();
    let marks: String = tag.marks.iter().enumerate().map(mark_line).collect();
    format!("{settings}\n{marks}")
}

fn number(word: &str, most: usize) -> Result<usize, String> {
    let only_digits = word.bytes().all(|byte| byte.is_ascii_digit());
    match word.parse() {
        Ok(number) if only_digits && number <= most => Ok(number),
        _ => Err(format!("{word:?} is no number from 0 to {most}")),
    }
}

/// The place of a setting in [`NAMES`], and its value.
fn setting(word: &str) -> Result<(usize, &str), String> {
    let why =
        || format!("{word:?} is neither a setting, such as n=15, nor a mark, such as 0: a=2148");
    let (name, value) = word.split_once('=').ok_or_else(why)?;
    let why = || format!("{name:?} is no setting: n, k, L and G are");
    let index = NAMES.iter().position(|&known| known == name);
    Ok((index.ok_or_else(why)?, value))
}

/// A symbol and its weight.
fn weight(word: &str) -> Result<(usize, u16), String> {
    let why = || format!("{word:?} is no symbol with its weight, such as a=2148");
    let (name, value) = word.split_once('=').ok_or_else(why)?;
    let why = || format!("{name:?} is no symbol: 0 to 9 and a to f are");
    let symbol = usize::from_str_radix(name, SYMBOLS as u32).ok();
    let symbol = symbol.filter(|_| name.len() == 1).ok_or_else(why)?;
    Ok((symbol, number(value, u16::MAX.into())? as u16))
}

#[derive(Default)]
struct Reader {
    reading: Reading,
    line: usize,
    /// Where it could be read.
    n: Option<usize>,
    /// The mark that comes next.
    next: usize,
}

impl Reader {
    fn fault(&mut self, why: String) {
        let line = Some(self.line);
        self.reading.faults.push(Fault { line, why });
    }

    fn setting(&mut self, word: &str) -> Result<(), String> {
        let (index, value) = setting(word)?;
        let item = Item::Setting(index);
        if self.reading.line_of(item).is_some() {
            return Err(format!("{} is set a second time", NAMES[index]));
        }
        self.reading.lines.push((item, self.line));
        let value = number(value, u8::MAX.into())?;
        self.reading.tag.settings[index] = value as u8;
        self.n = self.n.or((index == 0).then_some(value));
        Ok(())
    }

    fn weights(&mut self, words: &[&str]) -> Mark {
        let mut weights = [None; SYMBOLS];
        for word in words {
            match weight(word) {
                Err(why) => self.fault(why),
                Ok((symbol, _)) if weights[symbol].is_some() => {
                    self.fault(format!("symbol {symbol:x} is named twice"));
                }
                Ok((symbol, weight)) => weights[symbol] = Some(weight),
            }
        }
        Mark(weights.map(Option::unwrap_or_default))
    }

    fn mark(&mut self, name: &str, words: &[&str]) -> Result<(), String> {
        let why = |why| format!("a mark begins with its number, and {why}");
        let number = number(name, MOST_MARKS - 1).map_err(why)?;
        if number != self.next {
            self.fault(format!("mark {} comes next, not {number}", self.next));
        }
        self.next = number + 1;
        let mark = match words {
            ["erased"] => Mark::default(),
            _ => self.weights(words),
        };
        let marks = &mut self.reading.tag.marks;
        marks.resize(marks.len().max(self.next), Mark::default());
        marks[number] = mark;
        self.reading.lines.push((Item::Mark(number), self.line));
        let why = "names no symbol: write erased where it cannot be read";
        match words {
            [] => Err(format!("mark {number} {why}")),
            _ => Ok(()),
        }
    }

    fn take(&mut self, text: &str) {
        let said = text.split('#').next().unwrap_or_default();
        let Some((name, weights)) = said.split_once(':') else {
            for word in said.split_whitespace() {
                self.setting(word).unwrap_or_else(|why| self.fault(why));
            }
            return;
        };
        let words: Vec<&str> = weights.split_whitespace().collect();
        let taken = self.mark(name.trim(), &words);
        taken.unwrap_or_else(|why| self.fault(why));
    }

    /// What only the end of the text tells.
    fn end(&mut self) {
        for (index, name) in NAMES.into_iter().enumerate() {
            if self.reading.line_of(Item::Setting(index)).is_none() {
                self.fault(format!("the text ends, and {name} is not set"));
            }
        }
        let Some(n) = self.n else { return };
        if self.next < n {
            self.fault(format!("the text ends, and mark {} is missing", self.next));
        }
        if let Some(line) = self.reading.line_of(Item::Mark(n)) {
            self.line = line;
            self.fault(format!("mark {n} is too many: n is {n}"));
        }
    }
}

pub fn read(text: &str) -> Reading {
    let mut reader = Reader::default();
    reader.reading.tag.settings = LENIENT;
    reader.line = 1;
    if text.contains('\0') {
        reader.fault("this is no text: the program's bytes belong in a .tag".to_string());
        return reader.reading;
    }
    let text = text.trim_start_matches('\u{feff}');
    for (index, line) in text.lines().enumerate() {
        reader.line = index + 1;
        reader.take(line);
    }
    reader.end();
    reader.reading
}
