//! The counter's entries: lists of rows judged, alone and two together, and the row that is opened.

mod accidents;
mod alone;
mod case;
mod entry;
mod faulty;
mod judging;
mod lines;
mod long;
mod pool;
mod rows;
mod together;
mod written;

pub fn compare() {
    alone::compare();
    together::compare();
    written::compare();
    lines::compare();
}
