//! Memory lent to a call, between guards that belong to nobody.

use tags::Random;

/// Odd, so that what is lent starts at no rounder address than its type asks for.
const GUARDS: usize = 17;

#[derive(Clone, Debug, PartialEq)]
pub struct Lent<T> {
    memory: Vec<T>,
}

impl<T: Copy + Into<u64>> Lent<T> {
    /// The guards have any value and follow from the content: for the same call they are the same,
    /// from call to call they change, and whoever reads one meets symbols, faults and all else.
    fn new(content: &[T], guard: fn(&mut Random) -> T) -> Self {
        let mixed = |seed: u64, &entry: &T| seed.rotate_left(5).wrapping_add(entry.into());
        let mut random = Random::new(content.iter().fold(content.len() as u64, mixed));
        let mut guards = || (0..GUARDS).map(|_| guard(&mut random)).collect::<Vec<T>>();
        Lent {
            memory: [&guards(), content, &guards()].concat(),
        }
    }

    pub fn part(&self) -> &[T] {
        &self.memory[GUARDS..self.memory.len() - GUARDS]
    }

    pub fn part_mut(&mut self) -> &mut [T] {
        let end = self.memory.len() - GUARDS;
        &mut self.memory[GUARDS..end]
    }
}

impl Lent<u8> {
    pub fn bytes(content: &[u8]) -> Self {
        Lent::new(content, |random| random.between(0, u8::MAX.into()) as u8)
    }

    /// Room for an answer, filled with bytes that no entry writes.
    pub fn room(length: usize) -> Self {
        let pattern = |index: usize| 0x80 | (index * 29 % 0x80) as u8;
        Lent::bytes(&(0..length).map(pattern).collect::<Vec<u8>>())
    }
}

impl Lent<u16> {
    pub fn numbers(content: &[u16]) -> Self {
        Lent::new(content, |random| random.between(0, u16::MAX.into()) as u16)
    }

    /// Room for scores, filled with numbers that no entry writes.
    pub fn room_for_scores(length: usize) -> Self {
        let pattern = |index: usize| 0x8000 | (index * 1021 % 0x8000) as u16;
        Lent::numbers(&(0..length).map(pattern).collect::<Vec<u16>>())
    }
}
