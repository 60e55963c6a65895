//! Judges two photographs of a tag together: the counter opens, asks a person, or has no ticket.

use kv::{
    judge_both, list_of_reliabilities, open_both, Listed, Photograph, Refusal, Settings, Sizes,
    Verdict, LIMIT, SYMBOLS, WHOLE,
};

const SIZES: Sizes = Sizes { n: 6, k: 2 };
const SETTINGS: Settings = Settings {
    level: 4,
    limit: LIMIT,
};
const LEAD: usize = 4;

/// What each mark looks like, and what lies faint beneath it.
type Marks = [[usize; SIZES.n]; 2];

const CLEAR: Marks = [[1, 1, 1, 1, 1, 1], [1, 2, 4, 8, 3, 6]];
const WORN: Marks = [[1, 1, 1, 1, 1, 6], [1, 2, 4, 8, 3, 1]];
const SCUFFED: Marks = [[1, 1, 1, 1, 3, 6], [1, 2, 4, 8, 1, 1]];
const OTHER: Marks = [[1, 2, 4, 8, 3, 1], [1, 1, 1, 1, 1, 6]];
const BLURRED: Marks = [[2, 7, 1, 8, 2, 8], [3, 1, 4, 1, 5, 9]];

/// The list of a photograph, whose camera gives three quarters to what it sees.
fn listed([seen, beneath]: Marks) -> Result<Listed, Refusal> {
    let mut reliabilities = [0; SYMBOLS * SIZES.n];
    for position in 0..SIZES.n {
        reliabilities[SYMBOLS * position + seen[position]] += WHOLE / 4 * 3;
        reliabilities[SYMBOLS * position + beneath[position]] += WHOLE / 4;
    }
    list_of_reliabilities(SIZES, SETTINGS, &reliabilities)
}

fn judge(what: &str, marks: Marks, again: Marks) -> Result<(), Refusal> {
    let (list, other) = (listed(marks)?, listed(again)?);
    let first = Photograph {
        sizes: SIZES,
        level: SETTINGS.level,
        rows: &list.messages(),
        scores: &list.scores(),
    };
    let second = Photograph {
        rows: &other.messages(),
        scores: &other.scores(),
        ..first
    };
    match judge_both(first, second, LEAD)? {
        Verdict::Open => {
            let row = open_both(first, second, LEAD).iter();
            let digits: String = row.map(|symbol| format!("{symbol:x}")).collect();
            println!("{what}: open {digits}");
        }
        Verdict::Ask => println!("{what}: ask"),
        Verdict::Nothing => println!("{what}: nothing"),
    }
    Ok(())
}

fn main() -> Result<(), Refusal> {
    judge("worn and clear", WORN, CLEAR)?;
    judge("scuffed and clear", SCUFFED, CLEAR)?;
    judge("worn and another", WORN, OTHER)?;
    judge("blurred and clear", BLURRED, CLEAR)?;
    judge("blurred twice", BLURRED, BLURRED)
}
