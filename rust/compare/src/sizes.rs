//! Sizes and lengths at the edges.

use second::code::{sizes_allowed, LEAST_SIZE, MOST_POSITIONS};

/// Two beyond the most positions.
const GREATEST_SMALL_SIZE: usize = MOST_POSITIONS + 2;

/// The sizes that an entry takes.
#[derive(Clone, Copy)]
pub enum Sizes {
    N,
    K,
    Both,
    Neither,
}

/// n and k; one that is not taken is 0.
pub type Pair = (usize, usize);

impl Sizes {
    fn of(self, sizes: &[usize]) -> Vec<Pair> {
        let with_each = |&n: &usize| sizes.iter().map(move |&k| (n, k));
        match self {
            Sizes::N => sizes.iter().map(|&n| (n, 0)).collect(),
            Sizes::K => sizes.iter().map(|&k| (0, k)).collect(),
            Sizes::Both => sizes.iter().flat_map(with_each).collect(),
            Sizes::Neither => Vec::new(),
        }
    }

    /// Every choice of small sizes, allowed or not.
    pub fn small(self) -> Vec<Pair> {
        self.of(&small_sizes())
    }

    /// Every choice of sizes of which one at least is huge.
    pub fn huge(self) -> Vec<Pair> {
        let any = [small_sizes(), huge_sizes()].concat();
        let is_huge = |&(n, k): &Pair| n.max(k) > GREATEST_SMALL_SIZE;
        self.of(&any).into_iter().filter(is_huge).collect()
    }

    pub fn allowed(self) -> Vec<Pair> {
        let allow = |&pair: &Pair| self.allow(pair);
        self.small().into_iter().filter(allow).collect()
    }

    pub fn allow(self, (n, k): Pair) -> bool {
        match self {
            Sizes::N => sizes_allowed(n, LEAST_SIZE),
            Sizes::K => sizes_allowed(MOST_POSITIONS, k),
            Sizes::Both => sizes_allowed(n, k),
            Sizes::Neither => true,
        }
    }
}

fn small_sizes() -> Vec<usize> {
    (0..=GREATEST_SMALL_SIZE).collect()
}

/// Numbers that look small to whoever drops their high bits or multiplies them by sixteen, and the
/// greatest of all.
pub fn huge_sizes() -> Vec<usize> {
    let steps = [8, 16, 32, 60, 63].map(|bits| 1_usize << bits);
    let above = |step: usize| [0, 1, 2, 3, 15].map(|small| step + small);
    let mut huge = steps.map(above).concat();
    huge.push(usize::MAX);
    huge
}

/// The small number that a huge size looks like; a small size itself.
pub fn looks_like(size: usize) -> usize {
    match size {
        0..=GREATEST_SMALL_SIZE => size,
        _ => size % (MOST_POSITIONS + 1),
    }
}

/// Every length up to two more than a small one; else nothing, the wanted length and those on both
/// sides of it.
pub fn lengths_around(wanted: usize) -> Vec<usize> {
    match wanted {
        0..=GREATEST_SMALL_SIZE => (0..=wanted + 2).collect(),
        _ => vec![0, wanted - 1, wanted, wanted + 1],
    }
}

/// Nothing, the length before the wanted one, and that.
pub fn lengths_up_to(wanted: usize) -> Vec<usize> {
    vec![0, wanted.saturating_sub(1), wanted]
}

/// Lengths that look like the wanted one in 8 and in 16 bits.
pub fn lengths_like(wanted: usize) -> Vec<usize> {
    [8, 16].map(|bits| wanted + (1 << bits)).to_vec()
}

/// The content with one entry replaced.
pub fn with_entry<T: Copy>(content: &[T], index: usize, entry: T) -> Vec<T> {
    let mut changed = content.to_vec();
    changed[index] = entry;
    changed
}
