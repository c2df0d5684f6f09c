//! The calls that the proved station and the model both have, in the boundary's types, so that one
//! piece of code drives either.

use crate::boundary::{Answer, Figure, Settings, Station};

pub trait Engine {
    fn start(&mut self, own: Settings) -> Answer;
    fn stop(&mut self) -> Answer;
    fn tick(&mut self) -> Answer;
    /// So many ticks, one by one, and the answer of the last.
    fn ticks(&mut self, count: u32) -> Answer {
        (0..count).fold(Answer::default(), |_, _| self.tick())
    }
    fn hear(&mut self, octets: &[u8], memory: &mut [u8], assembly: &mut [u8]) -> Answer;
    fn ask(&mut self, memory: &[u8], turn: &mut [u8], output: &mut [u8]) -> Answer;
    fn show(&self) -> Figure;
}

/// The proved station.
impl Engine for Station {
    fn start(&mut self, own: Settings) -> Answer {
        Station::start(self, own)
    }

    fn stop(&mut self) -> Answer {
        Station::stop(self)
    }

    fn tick(&mut self) -> Answer {
        Station::tick(self)
    }

    /// In one call.
    fn ticks(&mut self, count: u32) -> Answer {
        Station::ticks(self, count)
    }

    fn hear(&mut self, octets: &[u8], memory: &mut [u8], assembly: &mut [u8]) -> Answer {
        Station::hear(self, octets, memory, assembly)
    }

    fn ask(&mut self, memory: &[u8], turn: &mut [u8], output: &mut [u8]) -> Answer {
        Station::ask(self, memory, turn, output)
    }

    fn show(&self) -> Figure {
        Station::show(self)
    }
}
