//! All messages whose score is above the bound, found without a polynomial in x and y.
//!
//! A codeword loses, at each position, what its entry lacks of the column's greatest. Its score is
//! above the bound exactly when it loses at most `spare` in all. Write the m positions in a circle:
//! by the cycle lemma there is one from which on, for each j, the first j positions lose at most
//! spare times j over m. So the search starts at each position in turn, gives up whatever loses
//! more than this, and misses nothing: k symbols give the codeword, and the others follow.

use crate::code::x_of;
use crate::field::{over, plus, times, SYMBOLS};
use std::collections::BTreeSet;

struct Column {
    x: u8,
    greatest: usize,
    /// By symbol.
    losses: Vec<usize>,
}

impl Column {
    fn new(position: usize, entries: &[u8]) -> Self {
        let greatest = entries.iter().copied().max().map_or(0, usize::from);
        let loss = |&m: &u8| greatest - usize::from(m);
        Column {
            x: x_of(position),
            greatest,
            losses: entries.iter().map(loss).collect(),
        }
    }

    fn tells_symbols_apart(&self) -> bool {
        self.losses.iter().any(|&loss| loss > 0)
    }
}

/// A polynomial through points, in Newton's form: factor j stands before the product of x plus the
/// x of each point before j.
#[derive(Default)]
struct Newton {
    points: Vec<u8>,
    factors: Vec<u8>,
}

impl Newton {
    fn value_at(&self, x: u8) -> u8 {
        let from_the_last = self.factors.iter().zip(&self.points).rev();
        from_the_last.fold(0, |value, (&factor, &point)| {
            plus(times(value, plus(x, point)), factor)
        })
    }

    fn add_point(&mut self, x: u8, y: u8) {
        let differences = self.points.iter().map(|&point| plus(x, point));
        let product = differences.fold(1, times);
        let factor = over(plus(y, self.value_at(x)), product);
        self.factors.push(factor);
        self.points.push(x);
    }

    fn remove_last_point(&mut self) {
        self.factors.pop();
        self.points.pop();
    }

    /// The coefficients of 1, x, x² and so on.
    fn message(&self) -> Vec<u8> {
        let mut message = vec![0; self.factors.len()];
        for (&factor, &point) in self.factors.iter().zip(&self.points).rev() {
            for j in (0..message.len()).rev() {
                let below = if j > 0 { message[j - 1] } else { factor };
                message[j] = plus(times(message[j], point), below);
            }
        }
        message
    }
}

struct Search {
    k: usize,
    spare: usize,
    columns: Vec<Column>,
    newton: Newton,
    found: BTreeSet<Vec<u8>>,
}

impl Search {
    /// Goes on where so many positions from `start` on have their symbols, which lose `lost`.
    fn go_on(&mut self, start: usize, fixed: usize, lost: usize) {
        let all = self.columns.len();
        if lost * all > self.spare * fixed {
            return;
        }
        if fixed == all {
            self.found.insert(self.newton.message());
            return;
        }
        let next = (start + fixed) % all;
        let x = self.columns[next].x;
        if fixed >= self.k {
            let symbol = self.newton.value_at(x);
            let loss = self.columns[next].losses[usize::from(symbol)];
            return self.go_on(start, fixed + 1, lost + loss);
        }
        for symbol in 0..SYMBOLS {
            let loss = self.columns[next].losses[symbol];
            if (lost + loss) * all <= self.spare * (fixed + 1) {
                self.newton.add_point(x, symbol as u8);
                self.go_on(start, fixed + 1, lost + loss);
                self.newton.remove_last_point();
            }
        }
    }
}

/// The messages whose score is above the bound, ordered by f_0, then f_1 and so on.
pub fn messages_above(bound: usize, k: usize, matrix: &[u8]) -> Vec<Vec<u8>> {
    let columns = matrix.chunks(SYMBOLS).enumerate();
    let mut columns: Vec<Column> = columns
        .map(|(i, entries)| Column::new(i, entries))
        .collect();
    let greatest_score: usize = columns.iter().map(|column| column.greatest).sum();
    if greatest_score <= bound {
        return Vec::new();
    }
    let telling = columns.iter().filter(|column| column.tells_symbols_apart());
    if telling.count() >= k {
        columns.retain(Column::tells_symbols_apart);
    }
    let mut search = Search {
        k,
        spare: greatest_score - bound - 1,
        columns,
        newton: Newton::default(),
        found: BTreeSet::new(),
    };
    for start in 0..search.columns.len() {
        search.go_on(start, 0, 0);
    }
    search.found.into_iter().collect()
}
