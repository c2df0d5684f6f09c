//! Frames to hand in, right and wrong: each field can be set by itself, and the octets that no rule
//! looks at are noise.

use crate::model::frame::{at, Code, ALL, HEADER, LONGEST, LONGEST_HEADER, MARK};
use crate::model::Areas;
use crate::random::Random;

#[derive(Clone, Debug)]
pub struct Frame {
    pub mark: [u8; 4],
    /// Octets in all.
    pub total: usize,
    /// TFL, where it is not the octets in all.
    pub length: Option<u32>,
    pub code: u16,
    pub source: u8,
    pub destination: u8,
    pub areas: Areas,
    pub block: u8,
    pub blocks: u8,
    pub size: u16,
    pub watch: u8,
}

impl Frame {
    /// A right cyclic frame with a header of 64 octets. `block` is 1 to the areas' blocks.
    pub fn cyclic(code: Code, source: u8, destination: u8, areas: Areas, block: u8) -> Frame {
        let size = areas.block(block).len();
        Frame {
            mark: MARK,
            total: HEADER + size,
            length: None,
            code: code as u16,
            source,
            destination,
            areas,
            block,
            blocks: areas.blocks(),
            size: size as u16,
            watch: 10,
        }
    }

    /// The token of a station that has no data to send.
    pub fn token(source: u8, destination: u8) -> Frame {
        Frame::cyclic(Code::Token, source, destination, Areas::default(), 1)
    }

    pub fn request(source: u8, areas: Areas) -> Frame {
        Frame {
            code: Code::Request as u16,
            destination: ALL,
            areas,
            block: 0,
            blocks: 0,
            size: 0x60,
            ..Frame::token(source, ALL)
        }
    }

    pub fn trigger(source: u8) -> Frame {
        Frame {
            code: Code::Trigger as u16,
            ..Frame::request(source, Areas::default())
        }
    }

    fn is_cyclic(&self) -> bool {
        self.code == Code::Token as u16 || self.code == Code::Cyclic as u16
    }

    /// Gives the frame another length that is still right.
    pub fn stretch(&mut self, random: &mut Random) {
        self.total = if self.is_cyclic() {
            usize::from(self.size) + random.between(HEADER, LONGEST_HEADER)
        } else {
            random.between(HEADER, LONGEST)
        };
    }

    /// Sets one field to some other value, mostly a wrong one next to the right ones. The block fields
    /// come up more often, since only cyclic frames are refused by them.
    pub fn spoil(&mut self, random: &mut Random, ours: u8) {
        match random.below(18) {
            0 => self.total = random.pick(&[0, 1, 4, 11, 62, 63, LONGEST + 1, LONGEST + 2, 2000]),
            1 => self.mark[random.below(4)] ^= 1 << random.below(8),
            2 => self.length = Some(random.pick(&wrong_lengths(self.total as u32))),
            3 => self.code = random.pick(&[0, 64_999, 65_003, 65_011, 65_013, 65_535]),
            4 => self.source = random.pick(&[0, 1, 254, 255]),
            5 => self.destination = random.pick(&[0, 1, 254, 255]),
            6 => self.source = ours,
            7 => self.source = random.octet(),
            8 => self.destination = random.octet(),
            9 | 10 => self.spoil_areas(random),
            11..=13 => {
                self.block = random.pick(&[
                    0,
                    1,
                    self.block.wrapping_add(1),
                    self.blocks.wrapping_add(1),
                    255,
                ])
            }
            14 | 15 => {
                self.blocks = random.pick(&[
                    0,
                    1,
                    self.blocks.wrapping_add(1),
                    self.blocks.wrapping_sub(1),
                    255,
                ])
            }
            _ => self.spoil_size(random),
        }
    }

    /// Boundary values of the ranges, 512 and 8192 words, some of them still right.
    fn spoil_areas(&mut self, random: &mut Random) {
        let (part, words) = match random.chance(50) {
            true => (&mut self.areas.one, 512),
            false => (&mut self.areas.two, 8192),
        };
        (part.address, part.size) = random.pick(&[
            (words, 0),
            (words + 1, 0),
            (words - 1, 1),
            (words - 1, 2),
            (0, words),
            (0, words + 1),
            (1, words),
            (words, 65_535),
            (65_535, 1),
            (65_535, 65_535),
        ]);
    }

    /// The block's length, and what stands before the data, one off the ranges or at their ends.
    fn spoil_size(&mut self, random: &mut Random) {
        let size = usize::from(self.size);
        match random.below(3) {
            0 => {
                self.size = random.pick(&[
                    0,
                    1,
                    1024,
                    1025,
                    65_535,
                    self.size ^ 1,
                    self.size.wrapping_sub(1),
                ])
            }
            1 => {
                self.total =
                    size + random.pick(&[HEADER - 1, HEADER, LONGEST_HEADER, LONGEST_HEADER + 1])
            }
            _ => self.total = random.between(HEADER, LONGEST),
        }
    }

    pub fn octets(&self, random: &mut Random) -> Vec<u8> {
        let mut octets = vec![0; self.total.max(HEADER)];
        random.fill(&mut octets);
        octets[at::H_TYPE..at::TFL].copy_from_slice(&self.mark);
        let length = self.length.unwrap_or(self.total as u32);
        octets[at::TFL..at::TFL + 4].copy_from_slice(&length.to_be_bytes());
        for (at, value) in [
            (at::SNA, self.source),
            (at::DNA, self.destination),
            (at::CBN, self.block),
            (at::TBN, self.blocks),
            (at::TW, self.watch),
        ] {
            octets[at] = value;
        }
        for (at, value) in [
            (at::TCD, self.code),
            (at::C_AD1, self.areas.one.address),
            (at::C_SZ1, self.areas.one.size),
            (at::C_AD2, self.areas.two.address),
            (at::C_SZ2, self.areas.two.size),
            (at::BSIZE, self.size),
        ] {
            octets[at..at + 2].copy_from_slice(&value.to_be_bytes());
        }
        octets.truncate(self.total);
        octets
    }
}

/// One off, 0, and right in the low octets only.
fn wrong_lengths(total: u32) -> [u32; 6] {
    [
        0,
        total.wrapping_sub(1),
        total + 1,
        total + 65_536,
        total | 1 << 31,
        total.swap_bytes(),
    ]
}
