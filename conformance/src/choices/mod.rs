//! What to do next with a station, drawn at random but led by its state, so that runs get far into
//! every phase.

pub mod due;
mod heard;

use crate::boundary::{Settings, Station};
use crate::call::{Call, ROOM};
use crate::model::frame::MARK;
use crate::model::{waits, MEMORY, OUTPUT};
use crate::names::*;
use crate::random::Random;
use due::{is_due, until_next, watch};

/// What is done next.
#[derive(Clone, Copy, Debug)]
pub enum Action {
    Noise,
    Frame,
    Again,
    Spoiled,
    Ask,
    Ticks,
    Start,
    Stop,
    Write,
    Show,
    LongGap,
}

const ACTIONS: [Action; 11] = [
    Action::Noise,
    Action::Frame,
    Action::Again,
    Action::Spoiled,
    Action::Ask,
    Action::Ticks,
    Action::Start,
    Action::Stop,
    Action::Write,
    Action::Show,
    Action::LongGap,
];

/// Weights of the actions in each phase. A participant is seldom stopped, so that much happens to
/// it.
const WEIGHTS: [[usize; 11]; 5] = [
    [300, 1500, 50, 4000, 1200, 600, 1200, 300, 50, 200, 0],
    [200, 2500, 50, 4800, 2500, 900, 400, 250, 50, 200, 0],
    [100, 4000, 50, 4000, 1500, 1000, 300, 200, 50, 150, 0],
    [100, 5000, 50, 1000, 2000, 700, 300, 80, 50, 100, 0],
    [200, 5000, 2000, 2500, 2500, 1500, 100, 20, 300, 400, 1],
];

/// Numbers of which both ends, and pairs around the borders of a machine word, come up often.
const NUMBERS: [u8; 14] = [1, 2, 3, 4, 5, 7, 8, 9, 63, 64, 65, 128, 253, 254];

/// Draws what comes next, in a manner that changes from start to start.
pub struct Choices {
    pub random: Random,
    /// How often, in a hundred, a turn that has begun goes on: ours and those that are heard.
    steady: usize,
    /// The numbers that mostly come up.
    numbers: Vec<u8>,
    /// The station that has nearly all of the common memory, so that it sends 17 blocks; 0 for
    /// none.
    owner: u8,
}

impl Choices {
    pub fn new(random: Random) -> Choices {
        Choices {
            random,
            steady: 50,
            numbers: NUMBERS.to_vec(),
            owner: 0,
        }
    }

    fn change_manner(&mut self) {
        self.steady = self.random.pick(&[30, 80, 97, 100]);
        let count = self.random.pick(&[3, 6, 40]);
        self.numbers = (0..count).map(|_| self.random.pick(&NUMBERS)).collect();
        self.owner = match self.random.chance(30) {
            true => self.numbers[0],
            false => 0,
        };
    }

    pub fn action(&mut self, state: &Station) -> Action {
        let asks = match state.core.phase() {
            PARTICIPATING => self.steady / 2,
            LISTENING => 30,
            _ => 45,
        };
        if is_due(&state.core) && self.random.chance(asks) {
            return Action::Ask;
        }
        let weights = &WEIGHTS[usize::from(state.core.phase())];
        let mut drawn = self.random.below(weights.iter().sum());
        for (action, &weight) in ACTIONS.iter().zip(weights) {
            if drawn < weight {
                return *action;
            }
            drawn -= weight;
        }
        unreachable!("the weights have been used up")
    }

    fn number(&mut self) -> u8 {
        match self.random.chance(95) {
            true => self.random.pick(&self.numbers),
            false => self.random.octet(),
        }
    }

    /// A watch time, mostly a short one.
    fn time(&mut self) -> u8 {
        self.random
            .pick(&[1, 1, 1, 1, 2, 2, 3, 3, 5, 5, 10, 10, 20, 255])
    }

    /// Settings of which some are refused.
    pub fn settings(&mut self) -> Settings {
        self.change_manner();
        let number = self.number();
        let mut settings = Settings {
            number,
            areas: self.areas(number).into(),
            watch: self.time(),
        };
        match self.random.below(20) {
            0 => settings.number = self.random.pick(&[0, 255]),
            1 => settings.watch = 0,
            2 => settings.areas.one.address = self.random.pick(&[513, 65_535]),
            3 => settings.areas.one.size = self.random.pick(&[513, 65_535]),
            4 => settings.areas.two.address = self.random.pick(&[8193, 65_535]),
            5 => settings.areas.two.size = self.random.pick(&[8193, 65_535]),
            _ => {}
        }
        settings
    }

    /// How many ticks come in a row: a few, just up to what they bring, or as many watches as
    /// strike everybody.
    pub fn ticks(&mut self, state: &Station) -> u32 {
        let until = until_next(state);
        let rounds = 3 * (state.list.numbers().count() as u32 + 1);
        match self.random.below(20) {
            0..=1 if until > 1 => until - 1,
            2..=3 => self.random.between(1, until as usize) as u32,
            // The token detection wait of one who joins is let end seldom: it has three rounds to
            // hear.
            4..=9 if state.core.phase() != JOINING || until < 10_000 || self.random.chance(10) => {
                until
            }
            10 if state.core.phase() == STARTUP => waits::ACCEPTANCE - state.core.elapsed,
            10 if state.core.phase() == PARTICIPATING => {
                until + rounds.min(30) * watch(state).min(200)
            }
            _ => self.random.between(1, 5) as u32,
        }
    }

    fn memory_length(&mut self) -> usize {
        match self.random.chance(97) {
            true => MEMORY,
            false => self.random.pick(&[0, 1, MEMORY - 1, MEMORY + 1, ROOM]),
        }
    }

    pub fn hear(&mut self, octets: Vec<u8>) -> Call {
        Call::Hear {
            octets,
            memory: self.memory_length(),
            assembly: self.memory_length(),
        }
    }

    pub fn ask(&mut self) -> Call {
        Call::Ask {
            memory: self.memory_length(),
            turn: self.memory_length(),
            output: match self.random.chance(98) {
                true => self.random.pick(&[OUTPUT, OUTPUT + 1, ROOM]),
                false => self.random.pick(&[0, 1, 64, OUTPUT - 1]),
            },
        }
    }

    /// Octets that are no frame, now and then with a mark and a length that fit.
    pub fn noise(&mut self) -> Vec<u8> {
        let length = self
            .random
            .pick(&[0, 1, 63, 64, 65, 96, 97, 1088, 1120, 1121, 1500]);
        let mut octets = vec![0; length];
        self.random.fill(&mut octets);
        if length >= 64 && self.random.chance(50) {
            octets[..4].copy_from_slice(&MARK);
            octets[4..8].copy_from_slice(&(length as u32).to_be_bytes());
        }
        octets
    }
}
