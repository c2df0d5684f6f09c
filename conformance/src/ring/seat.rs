//! A station and what its host keeps for it from call to call.

use crate::boundary::{Answer, Core, Settings, Station};
use crate::model::frame::Header;
use crate::model::{waits, Areas, MEMORY, OUTPUT};
use crate::names::*;
use crate::random::Random;
use crate::ring::measured::{Measured, Step};

#[derive(Clone)]
pub struct Seat {
    pub station: Station,
    /// What the host starts the station with.
    pub own: Settings,
    /// The answer to the latest call.
    pub answer: Answer,
    pub memory: Vec<u8>,
    pub assembly: Vec<u8>,
    pub turn: Vec<u8>,
    pub output: Vec<u8>,
    /// Our areas as the host last wrote them.
    pub written: Vec<u8>,
    /// Our areas as they were at the start of the turn that is being sent.
    begun: Vec<u8>,
    /// Our areas as they were at the start of the latest finished turn.
    pub finished: Vec<u8>,
    pub measured: Measured,
}

impl Seat {
    pub fn new(own: Settings) -> Seat {
        let octets = Areas::from(own.areas).octets();
        Seat {
            station: Station::new(),
            own,
            answer: Answer::default(),
            memory: vec![0; MEMORY],
            assembly: vec![0; MEMORY],
            turn: vec![0; MEMORY],
            output: vec![0; OUTPUT],
            written: vec![0; octets],
            begun: vec![0; octets],
            finished: vec![0; octets],
            measured: Measured::default(),
        }
    }

    pub fn number(&self) -> u8 {
        self.own.number
    }

    pub fn areas(&self) -> Areas {
        self.own.areas.into()
    }

    pub fn participates(&self) -> bool {
        self.station.core.phase() == PARTICIPATING
    }

    pub fn holds(&self) -> bool {
        self.participates() && self.station.core.view() == self.own.number
    }

    /// False only where no frame can be due: a trigger waits for token detection, a request for its
    /// phase, a block for the token.
    pub fn may_send(&self) -> bool {
        let core = &self.station.core;
        match core.phase() {
            LISTENING => core.elapsed >= waits::TOKEN_DETECTION,
            STARTUP => !core.sent(),
            JOINING => core.rounds() == 3,
            _ => self.holds(),
        }
    }

    /// The numbers in the station list, ascending.
    pub fn listed(&self) -> impl Iterator<Item = u8> + '_ {
        self.station.list.numbers()
    }

    /// Ticks that the watch runs.
    pub fn watch_ticks(&self) -> u32 {
        waits::watch(self.own.watch)
    }

    pub fn watch_ends_next(&self) -> bool {
        self.station.core.elapsed + 1 >= self.watch_ticks()
    }

    pub fn start(&mut self) {
        let before = self.station.core;
        let answer = self.station.start(self.own);
        self.note(before, answer, Step::Other);
    }

    pub fn stop(&mut self) {
        let before = self.station.core;
        let answer = self.station.stop();
        self.note(before, answer, Step::Other);
    }

    pub fn tick(&mut self) {
        let before = self.station.core;
        let answer = self.station.tick();
        self.note(before, answer, Step::Tick);
    }

    pub fn hear(&mut self, octets: &[u8]) {
        let before = self.station.core;
        let (memory, assembly) = (&mut self.memory, &mut self.assembly);
        let answer = self.station.hear(octets, memory, assembly);
        self.note(before, answer, Step::Other);
    }

    /// Asks for a frame. One that is written stands at the front of the output.
    pub fn ask(&mut self) -> Option<Header> {
        let before = self.station.core;
        let (turn, output) = (&mut self.turn, &mut self.output);
        let answer = self.station.ask(&self.memory, turn, output);
        if answer.word != WORD_FRAME {
            self.note(before, answer, Step::Other);
            return None;
        }
        let written = Header::read(&self.output[..answer.octets]).expect("a frame");
        let step = match written.has_token() {
            true => Step::Pass,
            false => Step::Other,
        };
        self.note(before, answer, step);
        self.follow_turn(&written);
        Some(written)
    }

    /// Notes what the owner copied: asking does not change the common memory, so it still stands
    /// there after the first block.
    fn follow_turn(&mut self, written: &Header) {
        if written.block == 1 {
            self.areas().take(&self.memory, &mut self.begun);
        }
        if written.has_token() {
            self.finished.clone_from(&self.begun);
        }
    }

    /// The host writes new octets in its own areas.
    pub fn write_own(&mut self, random: &mut Random) {
        random.fill(&mut self.written);
        self.areas().put(&self.written, &mut self.memory);
    }

    /// Notes a call that has been made: its answer, and what a bystander counts.
    pub fn note(&mut self, before: Core, answer: Answer, step: Step) {
        self.measured = self.measured.after(step, &before, &self.station.core);
        self.answer = answer;
    }
}
