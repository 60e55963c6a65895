//! What the program refuses in a tag.

use crate::tag::{Mark, Tag, NAMES};
use kv::{Refusal, LEVEL, LIMIT, POSITIONS, WHOLE};

/// What stands in a tag: a setting, by its place in [`NAMES`], or a mark, by its number.
#[derive(Clone, Copy, Debug, PartialEq, Eq)]
pub enum Item {
    Setting(usize),
    Mark(usize),
}

pub struct Fault {
    pub item: Item,
    pub refusal: Refusal,
    pub why: String,
}

fn of_setting(tag: &Tag, index: usize) -> Option<Fault> {
    let n = usize::from(tag.settings[0]);
    let (least, most, refusal) = match index {
        0 => (2, POSITIONS, Refusal::Sizes),
        1 => (2, n, Refusal::Sizes),
        2 => (1, LEVEL, Refusal::Setting),
        _ => (0, LIMIT, Refusal::Setting),
    };
    let (name, value) = (NAMES[index], usize::from(tag.settings[index]));
    let which = if index == 1 { ", which is n" } else { "" };
    (value < least || most < value).then(|| Fault {
        item: Item::Setting(index),
        refusal,
        why: format!("{name} is {value}, and may be from {least} to {most}{which}"),
    })
}

fn of_mark((number, mark): (usize, &Mark)) -> Option<Fault> {
    let sum = mark.sum();
    (sum > WHOLE.into()).then(|| Fault {
        item: Item::Mark(number),
        refusal: Refusal::Column(number),
        why: format!("the weights of mark {number} sum to {sum}, and {WHOLE} is the most"),
    })
}

/// A tag with any other fault has no cost.
fn of_cost(tag: &Tag) -> Option<Fault> {
    let (limit, cost) = (tag.settings[3], tag.cost_and_bound().ok()?.cost);
    (cost > limit.into()).then(|| Fault {
        item: Item::Setting(3),
        refusal: Refusal::Cost,
        why: format!("the marks cost {cost}, and the limit G is {limit}"),
    })
}

/// Every fault, in the order in which the program tries them: it refuses by the first.
pub fn faults(tag: &Tag) -> Vec<Fault> {
    let settings = (0..NAMES.len()).filter_map(|index| of_setting(tag, index));
    let marks = tag.marks.iter().enumerate().filter_map(of_mark);
    settings.chain(marks).chain(of_cost(tag)).collect()
}
