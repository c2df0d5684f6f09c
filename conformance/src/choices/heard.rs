//! Which frame comes next.

use super::Choices;
use crate::boundary::Station;
use crate::frames::Frame;
use crate::model::frame::{at, Code, HEADER};
use crate::model::{Areas, Part};
use crate::names::*;

impl Choices {
    /// A right frame that gets the station on.
    pub fn frame(&mut self, state: &Station) -> Frame {
        let goes_on = state.core.blocks() > 0 && self.random.chance(self.steady);
        let mut frame = match goes_on {
            true => self.cyclic(state, state.core.source()),
            false => self.any_frame(state),
        };
        frame.watch = match self.random.below(10) {
            0 => 0,
            1 => self.random.octet(),
            _ => self.time(),
        };
        if self.random.chance(30) {
            frame.stretch(&mut self.random);
        }
        frame
    }

    fn any_frame(&mut self, state: &Station) -> Frame {
        // Of a hundred frames; the rest are triggers.
        let (cyclics, requests) = match state.core.phase() {
            LISTENING => (45, 15),
            STARTUP => (20, 75),
            JOINING => (90, 5),
            _ => (88, 10),
        };
        let source = self.source(state);
        let drawn = self.random.below(100);
        if drawn < cyclics {
            self.cyclic(state, source)
        } else if drawn < cyclics + requests {
            Frame::request(source, self.areas(source))
        } else {
            Frame::trigger(source)
        }
    }

    /// Several fields may be wrong at once, so that the order of the refusals shows.
    pub fn spoiled(&mut self, state: &Station) -> Frame {
        let mut frame = self.frame(state);
        for _ in 0..self.random.pick(&[1, 1, 1, 2, 3]) {
            frame.spoil(&mut self.random, state.core.own().number);
        }
        frame
    }

    /// A frame heard once more: as it was, with the token for somebody else or without it, or with
    /// one bit of its data changed.
    pub fn again(&mut self, state: &Station, heard: &[u8]) -> Vec<u8> {
        let mut octets = heard.to_vec();
        if octets.len() <= HEADER {
            return octets;
        }
        let data = octets.len().min(1024 + HEADER) - HEADER;
        match self.random.below(10) {
            0 => {
                let back = self.random.pick(&[1, 2, data]);
                let at = octets.len() - back;
                octets[at] ^= 1 << self.random.below(8);
            }
            1..=5 => {
                let code = self.random.pick(&[Code::Token, Code::Token, Code::Cyclic]);
                octets[at::TCD..at::TCD + 2].copy_from_slice(&(code as u16).to_be_bytes());
                octets[at::DNA] = self.destination(state);
            }
            _ => {}
        }
        octets
    }

    /// Who sends: the one in view, another listed one, or anybody else.
    fn source(&mut self, state: &Station) -> u8 {
        let listed: Vec<u8> = state.list.numbers().collect();
        let source = match self.random.below(100) {
            0..=39 if state.list.entry(state.core.view()).listed => state.core.view(),
            40..=94 if !listed.is_empty() => self.random.pick(&listed),
            _ => self.number(),
        };
        // Our own number is left to the spoiled frames, since it ends everything before we
        // participate.
        match source == state.core.own().number {
            true => source % 254 + 1,
            false => source,
        }
    }

    fn destination(&mut self, state: &Station) -> u8 {
        let listed: Vec<u8> = state.list.numbers().collect();
        match self.random.below(10) {
            0..=2 if state.core.phase() >= JOINING => state.core.own().number,
            0..=8 if !listed.is_empty() => self.random.pick(&listed),
            _ => self.number(),
        }
    }

    fn cyclic(&mut self, state: &Station, source: u8) -> Frame {
        let entry = state.list.entry(source);
        let listed = Areas::from(entry.areas);
        let areas = match entry.listed && listed.fit() && self.random.chance(98) {
            true => listed,
            false => self.areas(source),
        };
        let blocks = areas.blocks();
        let next = match state.core.source() == source {
            true => state.core.blocks().saturating_add(1),
            false => 1,
        };
        let block = match next <= blocks && self.random.chance(self.steady.max(80)) {
            true => next,
            false => self.random.between(1, usize::from(blocks)) as u8,
        };
        // Mostly, as stations do, the token goes with the last block. Ring startup ends by it.
        let has_token = match state.core.phase() {
            STARTUP => self.random.chance(15),
            _ if self.random.chance(60) => block == blocks,
            _ => self.random.chance(67),
        };
        let code = if has_token { Code::Token } else { Code::Cyclic };
        Frame::cyclic(code, source, self.destination(state), areas, block)
    }

    fn part(&mut self, place: usize, words: usize) -> Part {
        Part::new((place * words) as u16, self.random.between(1, words) as u16)
    }

    /// Areas within their ranges: of stations with different numbers mostly apart, so that turns of
    /// all lengths are written.
    pub fn areas(&mut self, number: u8) -> Areas {
        let place = usize::from(number);
        match self.random.below(10) {
            0 => self.empty_areas(),
            _ if number == self.owner => Areas::new(
                self.part(0, 512),
                Part::new(0, self.random.pick(&[7680, 8191, 8192, 8192])),
            ),
            1.. if self.owner > 0 => self.empty_areas(),
            1..=3 => self.apart(place, 16),
            4..=6 => self.apart(place, 8),
            _ => self.apart(place, 2),
        }
    }

    /// Part of the station's own share, one of so many.
    fn apart(&mut self, place: usize, shares: usize) -> Areas {
        Areas::new(
            self.part(place % shares, 512 / shares),
            self.part(place % shares, 8192 / shares),
        )
    }

    fn empty_areas(&mut self) -> Areas {
        let mut empty = |words| Part::new(self.random.pick(&[0, 0, 1, words - 1, words]), 0);
        Areas::new(empty(512), empty(8192))
    }
}
