//! The points of a matrix.

use super::field::{POWERS, SYMBOLS};
use second::bound::{GREATEST_LIMIT, GREATEST_MULTIPLICITY};

/// The orders of derivative, 0 to the greatest multiplicity less 1.
pub const ORDERS: usize = GREATEST_MULTIPLICITY as usize;
/// Each costs 1 or more.
const MOST_POINTS: usize = GREATEST_LIMIT;
/// The entries that are read at once.
const AT_ONCE: usize = 8;
const ENTRY_BITS: usize = 8;

#[derive(Clone, Copy, Default)]
pub struct Point {
    pub x: u8,
    pub y: u8,
    pub multiplicity: u8,
}

pub struct Points {
    listed: [Point; MOST_POINTS],
    count: usize,
    pub cost: usize,
}

impl Points {
    pub fn of(matrix: &[u8]) -> Self {
        let mut points = Points {
            listed: [Point::default(); MOST_POINTS],
            count: 0,
            cost: 0,
        };
        for (index, entries) in matrix.as_chunks::<AT_ONCE>().0.iter().enumerate() {
            let mut left = u64::from_le_bytes(*entries);
            while left != 0 {
                let place = left.trailing_zeros() as usize / ENTRY_BITS;
                points.add(AT_ONCE * index + place, entries[place]);
                left &= !(0xff << (ENTRY_BITS * place));
            }
        }
        points
    }

    fn add(&mut self, index: usize, multiplicity: u8) {
        self.listed[self.count] = Point {
            x: POWERS[index / SYMBOLS],
            y: (index % SYMBOLS) as u8,
            multiplicity,
        };
        self.count += 1;
        let m = usize::from(multiplicity);
        self.cost += m * (m + 1) / 2;
    }

    pub fn listed(&self) -> &[Point] {
        &self.listed[..self.count]
    }
}
