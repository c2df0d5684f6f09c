//! The station list: which numbers are listed, and beside it a table of what is known of each.

use super::Areas;
use std::iter::successors;

#[derive(Clone, Copy, Debug, Default, PartialEq, Eq)]
pub struct Entry {
    pub areas: Areas,
    /// Milliseconds.
    pub watch: u8,
    /// In a row.
    pub misses: u8,
}

/// Numbers are 1 to 254. An entry whose number is not listed means nothing.
#[derive(Clone, Debug)]
pub struct List {
    listed: [u64; 4],
    entries: [Entry; 256],
}

impl List {
    pub fn new() -> List {
        List {
            listed: [0; 4],
            entries: [Entry::default(); 256],
        }
    }

    pub fn clear(&mut self) {
        self.listed = [0; 4];
    }

    pub fn contains(&self, number: u8) -> bool {
        self.listed[usize::from(number / 64)] >> (number % 64) & 1 == 1
    }

    pub fn get(&self, number: u8) -> Option<&Entry> {
        self.contains(number)
            .then(|| &self.entries[usize::from(number)])
    }

    pub fn get_mut(&mut self, number: u8) -> Option<&mut Entry> {
        self.contains(number)
            .then(|| &mut self.entries[usize::from(number)])
    }

    pub fn insert(&mut self, number: u8, entry: Entry) {
        self.listed[usize::from(number / 64)] |= 1 << (number % 64);
        self.entries[usize::from(number)] = entry;
    }

    pub fn strike(&mut self, number: u8) {
        self.listed[usize::from(number / 64)] &= !(1 << (number % 64));
    }

    /// The smallest listed number above this one.
    fn above(&self, number: u8) -> Option<u8> {
        let mut group = usize::from(number) / 64;
        // The bits above `number` in its group: two shifts, since one of 64 is none.
        let mut bits = self.listed[group] & (u64::MAX << (number % 64) << 1);
        while bits == 0 {
            group += 1;
            bits = *self.listed.get(group)?;
        }
        Some((64 * group) as u8 + bits.trailing_zeros() as u8)
    }

    pub fn numbers(&self) -> impl Iterator<Item = u8> + '_ {
        successors(self.above(0), |&number| self.above(number))
    }

    pub fn is_empty(&self) -> bool {
        self.listed == [0; 4]
    }

    /// The smallest of the listed numbers and ours.
    pub fn smallest_with(&self, ours: u8) -> u8 {
        self.above(0).map_or(ours, |first| first.min(ours))
    }

    /// The next larger number in the list with ours, or the smallest after the largest.
    pub fn next(&self, number: u8, ours: u8) -> u8 {
        let larger = match self.above(number) {
            Some(listed) if ours > number => Some(listed.min(ours)),
            None if ours > number => Some(ours),
            listed => listed,
        };
        larger.unwrap_or_else(|| self.smallest_with(ours))
    }

    /// Whether a listed station, this number aside, overlaps these areas.
    pub fn overlaps(&self, areas: &Areas, aside: u8) -> bool {
        self.numbers()
            .any(|number| number != aside && self.entries[usize::from(number)].areas.overlap(areas))
    }
}

impl Default for List {
    fn default() -> List {
        List::new()
    }
}
