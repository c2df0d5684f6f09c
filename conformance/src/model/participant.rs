//! A participant: its view of the token, its watch and its place in the turn.

use super::data::Gathering;
use super::frame::{Code, Header};
use super::panel::Panel;
use super::{waits, Answer, List, Outcome, Refusal, Settings};

/// Misses in a row that strike a station.
const MISSES: u8 = 3;

/// What became of the token.
#[derive(Clone, Copy, Debug, PartialEq, Eq)]
pub enum Token {
    None,
    PassedOn,
    OursNow,
    RivalPassedOver,
    RivalWon,
}

#[derive(Clone, Copy, Debug, PartialEq, Eq)]
pub struct Participant {
    /// The number taken to be the holder.
    pub view: u8,
    /// Ticks since the watch restarted.
    pub watched: u32,
    /// Blocks of our turn that have been sent.
    pub sent: u8,
    pub gathering: Gathering,
    pub panel: Panel,
}

impl Participant {
    /// To begin with our own number in view is a taking.
    pub fn new(ours: u8, view: u8) -> Participant {
        let mut panel = Panel::default();
        if view == ours {
            panel.take();
        }
        Participant {
            view,
            watched: 0,
            sent: 0,
            gathering: Gathering::default(),
            panel,
        }
    }

    /// The view becomes this number. Who stops holding forgets how far its turn had come.
    pub fn turn_to(&mut self, view: u8, ours: u8) {
        if view != ours {
            self.sent = 0;
        } else if self.view != ours {
            self.panel.take();
        }
        self.view = view;
    }

    /// Our last block has been sent. To pass to ourselves is a taking too.
    pub fn pass(&mut self, next: u8, ours: u8) {
        self.sent = 0;
        if next == ours {
            self.panel.take();
        }
        self.view = next;
    }

    /// A token frame. Of rival tokens the one with the smaller destination wins.
    pub fn token(&mut self, source: u8, destination: u8, ours: u8) -> Token {
        let before = self.view;
        let from_holder = source == before;
        let view = if from_holder {
            destination
        } else {
            before.min(destination)
        };
        self.turn_to(view, ours);
        match view {
            _ if view == ours && before != ours => Token::OursNow,
            _ if from_holder => Token::PassedOn,
            _ if view != before => Token::RivalWon,
            _ => Token::RivalPassedOver,
        }
    }

    /// Ticks that the watch runs, as list and view stand: for the listed time of the station in
    /// view, our own time when we hold or it is not listed. A listed time of 0 counts as 1 ms.
    pub fn watch(&self, list: &List, own: &Settings) -> u32 {
        let other = Some(self.view).filter(|&view| view != own.number);
        let entry = other.and_then(|view| list.get(view));
        waits::watch(entry.map_or(own.watch, |entry| entry.watch.max(1)))
    }

    /// The watch has ended: the station in view has missed its turn, or we give up the token.
    pub fn end_watch(&mut self, list: &mut List, ours: u8) {
        let missed = self.view;
        if let Some(entry) = list.get_mut(missed) {
            entry.misses += 1;
            if entry.misses == MISSES {
                list.strike(missed);
                self.gathering.drop_from(missed);
            }
        }
        self.turn_to(list.next(missed, ours), ours);
        self.watched = 0;
    }

    /// A cyclic frame that was read, with its data.
    pub fn hear(
        &mut self,
        list: &mut List,
        ours: u8,
        header: &Header,
        data: &[u8],
        memory: &mut [u8],
        assembly: &mut [u8],
    ) -> Outcome {
        let known = header.destination == ours || list.contains(header.destination);
        if header.has_token() && !known {
            return Err(Refusal::Stranger);
        }
        let entry = list.get_mut(header.source).ok_or(Refusal::Stranger)?;
        entry.misses = 0;
        self.watched = 0;
        let token = match header.code {
            Code::Token => self.token(header.source, header.destination, ours),
            _ => Token::None,
        };
        let areas = &entry.areas;
        let data = self.gathering.gather(header, data, areas, memory, assembly);
        Ok(Answer::Cyclic { token, data })
    }

    /// A holder's next block, from a copy of its areas made at the first one.
    pub fn send_block(
        &mut self,
        own: &Settings,
        next: u8,
        memory: &[u8],
        turn: &mut [u8],
        output: &mut [u8],
    ) -> usize {
        if self.sent == 0 {
            own.areas.take(memory, turn);
        }
        self.sent += 1;
        self.watched = 0;
        let header = Header::block(own, self.sent, next);
        let octets = header.write(&turn[own.areas.block(header.block)], output);
        if header.has_token() {
            self.pass(next, own.number);
        }
        octets
    }
}
