//! What a station has of the common memory, and the blocks of its turn.

use std::ops::Range;

/// Octets of the common memory, and of the assembly and turn buffers.
pub const MEMORY: usize = 2 * (WORDS_ONE + WORDS_TWO) as usize;
/// Octets of a block, the last one of a turn aside.
pub const BLOCK: usize = 1024;

const WORDS_ONE: u32 = 512;
const WORDS_TWO: u32 = 8192;

/// A part of one area, in words of two octets.
#[derive(Clone, Copy, Debug, Default, PartialEq, Eq)]
pub struct Part {
    pub address: u16,
    pub size: u16,
}

impl Part {
    pub const fn new(address: u16, size: u16) -> Part {
        Part { address, size }
    }

    fn end(self) -> u32 {
        u32::from(self.address) + u32::from(self.size)
    }

    fn overlaps(self, other: Part) -> bool {
        let both_filled = self.size > 0 && other.size > 0;
        both_filled
            && u32::from(self.address) < other.end()
            && u32::from(other.address) < self.end()
    }

    fn octets(self) -> usize {
        2 * usize::from(self.size)
    }

    fn place(self, area_start: u32) -> Range<usize> {
        let start = 2 * (area_start as usize + usize::from(self.address));
        start..start + self.octets()
    }
}

#[derive(Clone, Copy, Debug, Default, PartialEq, Eq)]
pub struct Areas {
    pub one: Part,
    pub two: Part,
}

impl Areas {
    pub const fn new(one: Part, two: Part) -> Areas {
        Areas { one, two }
    }

    pub fn fit(&self) -> bool {
        self.one.end() <= WORDS_ONE && self.two.end() <= WORDS_TWO
    }

    pub fn overlap(&self, other: &Areas) -> bool {
        self.one.overlaps(other.one) || self.two.overlaps(other.two)
    }

    /// Both sizes 0; the addresses stay.
    pub fn empty(&mut self) {
        self.one.size = 0;
        self.two.size = 0;
    }

    /// Octets of a turn.
    pub fn octets(&self) -> usize {
        self.one.octets() + self.two.octets()
    }

    /// Blocks of a turn. An empty turn is one block of 0.
    pub fn blocks(&self) -> u8 {
        self.octets().div_ceil(BLOCK).max(1) as u8
    }

    /// Where a block, 1 to `blocks`, stands in the turn.
    pub fn block(&self, block: u8) -> Range<usize> {
        let start = BLOCK * (usize::from(block) - 1);
        start..self.octets().min(start + BLOCK)
    }

    /// Copies the areas to the front of the turn buffer, area 1 first.
    pub fn take(&self, memory: &[u8], turn: &mut [u8]) {
        let (one, two) = turn[..self.octets()].split_at_mut(self.one.octets());
        one.copy_from_slice(&memory[self.one.place(0)]);
        two.copy_from_slice(&memory[self.two.place(WORDS_ONE)]);
    }

    /// Writes a whole turn to its areas of the common memory.
    pub fn put(&self, turn: &[u8], memory: &mut [u8]) {
        let (one, two) = turn[..self.octets()].split_at(self.one.octets());
        memory[self.one.place(0)].copy_from_slice(one);
        memory[self.two.place(WORDS_ONE)].copy_from_slice(two);
    }
}
