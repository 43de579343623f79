//! Memory to lend: filled with random cells, with guards before and after it, and compared whole after a call.
use crate::random::Random;
use std::fmt::Debug;

const GUARD: usize = 16;

pub trait Cell: Copy + PartialEq + Debug {
    fn any(random: &mut Random) -> Self;
}

impl Cell for u8 {
    fn any(random: &mut Random) -> u8 {
        random.word() as u8
    }
}

impl Cell for u64 {
    fn any(random: &mut Random) -> u64 {
        random.word()
    }
}

impl<const WORDS: usize> Cell for [u64; WORDS] {
    fn any(random: &mut Random) -> [u64; WORDS] {
        std::array::from_fn(|_| random.word())
    }
}

pub struct Lent<T> {
    cells: Vec<T>,
    before: Vec<T>,
}

impl<T: Cell> Lent<T> {
    pub fn new(length: usize, random: &mut Random) -> Lent<T> {
        // A few random cells over and over: no two neighbours are the same, and a megabyte costs little.
        let pattern: Vec<T> = (0..61).map(|_| T::any(random)).collect();
        let cells: Vec<T> = pattern.into_iter().cycle().take(length + 2 * GUARD).collect();
        Lent { before: cells.clone(), cells }
    }

    pub fn slice(&mut self) -> &mut [T] {
        let end = self.cells.len() - GUARD;
        &mut self.cells[GUARD..end]
    }

    /// What is lent holds these cells at its start, and all else, guards too, is as it was.
    pub fn holds(&self, start: &[T]) -> bool {
        let end = GUARD + start.len();
        end <= self.cells.len() - GUARD
            && self.cells[GUARD..end] == *start
            && self.cells[..GUARD] == self.before[..GUARD]
            && self.cells[end..] == self.before[end..]
    }
}

impl Lent<u64> {
    /// The eight words for an answer's values.
    pub fn values(random: &mut Random) -> Lent<u64> {
        Lent::new(8, random)
    }

    pub fn eight(&mut self) -> &mut [u64; 8] {
        self.slice().try_into().expect("eight words")
    }
}
