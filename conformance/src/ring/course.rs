//! The events of demand 3 in a random order within its premises.

use crate::model::frame::Header;
use crate::model::OUTPUT;
use crate::random::Random;
use crate::ring::stray::{stray, Requests};
use crate::ring::Ring;

/// What an event was, as far as demand 3 counts it.
#[derive(Clone, Copy, Debug, PartialEq, Eq)]
pub enum Event {
    /// An asking that wrote code 65000.
    Pass(Header),
    /// A tick that ended the watches.
    Silence,
    Other,
}

/// Which of several holders is asked.
#[derive(Clone, Copy, Debug)]
enum Favour {
    Any,
    Smallest,
    Largest,
}

#[derive(Clone, Debug)]
pub struct Course {
    random: Random,
    favour: Favour,
    /// Of sixteen events, how many are ticks while somebody holds.
    ticks: usize,
    pub requests: Requests,
    /// Lent buffers hold anything, and requests carry anything.
    pub wild: bool,
}

impl Course {
    pub fn new(seed: u64) -> Course {
        let mut random = Random::new(seed);
        let wild = random.one_in(2);
        Course {
            favour: random.pick(&[Favour::Any, Favour::Smallest, Favour::Largest]),
            ticks: random.below(15),
            requests: if wild { Requests::Any } else { Requests::True },
            wild,
            random,
        }
    }

    pub fn event(&mut self, ring: &mut Ring) -> Event {
        if self.wild {
            self.scramble(ring);
        }
        let holders = ring.holders();
        let at = self.random.below(ring.seats.len());
        let kind = self.random.below(16);
        let may_tick = !holders
            .iter()
            .any(|&holder| ring.seats[holder].watch_ends_next());
        match kind {
            0 => {
                stray(ring, at, self.requests, &mut self.random);
                Event::Other
            }
            1 => ask(ring, at),
            _ if holders.is_empty() || (kind <= self.ticks && may_tick) => tick(ring),
            _ => ask(ring, self.choose(&holders)),
        }
    }

    fn choose(&mut self, holders: &[usize]) -> usize {
        match self.favour {
            Favour::Any => self.random.pick(holders),
            Favour::Smallest => holders[0],
            Favour::Largest => holders[holders.len() - 1],
        }
    }

    /// Puts anything into one buffer of one station, now and then.
    fn scramble(&mut self, ring: &mut Ring) {
        let at = self.random.below(ring.seats.len());
        let seat = &mut ring.seats[at];
        match self.random.below(16) {
            0 => self.random.fill(&mut seat.memory),
            1 => self.random.fill(&mut seat.assembly),
            2 => self.random.fill(&mut seat.turn),
            3 => seat.output.resize(OUTPUT + self.random.below(100), 0),
            _ => {}
        }
    }
}

fn ask(ring: &mut Ring, at: usize) -> Event {
    match ring.ask(at) {
        Some(written) if written.has_token() => Event::Pass(written),
        _ => Event::Other,
    }
}

fn tick(ring: &mut Ring) -> Event {
    ring.tick();
    let ended = ring
        .seats
        .iter()
        .filter(|seat| seat.station.core.elapsed == 0)
        .count();
    assert!(
        ended == 0 || ended == ring.seats.len(),
        "only {ended} watches ended"
    );
    if ended == 0 {
        Event::Other
    } else {
        Event::Silence
    }
}
