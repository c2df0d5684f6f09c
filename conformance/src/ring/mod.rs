//! Rings of proved stations on a made-up wire: what one station writes is handed to the others,
//! with faults where they are asked for.

pub mod course;
pub mod disturb;
pub mod measured;
pub mod seat;
pub mod start;
pub mod stray;

use crate::boundary::Settings;
use crate::model::frame::Header;
use crate::random::Random;
use seat::Seat;

/// A late frame comes at most so many ticks after its time.
const LATEST_TICKS: usize = 30;

#[derive(Clone)]
struct Late {
    due: u64,
    hearer: usize,
    octets: Vec<u8>,
}

/// Hearings that went wrong.
#[derive(Clone, Copy, Debug, Default)]
pub struct Faults {
    pub lost: u64,
    pub repeated: u64,
    pub late: u64,
}

/// What the wire does with a frame for one hearer.
enum Fate {
    Heard,
    Lost,
    Repeated,
    Late(u64),
}

#[derive(Clone)]
pub struct Ring {
    /// In ascending order of their numbers.
    pub seats: Vec<Seat>,
    /// Ticks so far.
    pub now: u64,
    /// Of a million hearings, how many are lost; as many again are repeated, and as many late.
    pub fault_rate: usize,
    pub faults: Faults,
    random: Random,
    late: Vec<Late>,
}

impl Ring {
    pub fn new(settings: &[Settings], seed: u64) -> Ring {
        Ring {
            seats: settings.iter().copied().map(Seat::new).collect(),
            now: 0,
            fault_rate: 0,
            faults: Faults::default(),
            random: Random::new(seed),
            late: Vec::new(),
        }
    }

    pub fn numbers(&self) -> Vec<u8> {
        self.seats.iter().map(Seat::number).collect()
    }

    /// The stations that hold the token, by their places.
    pub fn holders(&self) -> Vec<usize> {
        (0..self.seats.len())
            .filter(|&at| self.seats[at].holds())
            .collect()
    }

    pub fn views(&self) -> Vec<u8> {
        self.seats
            .iter()
            .map(|seat| seat.station.core.view())
            .collect()
    }

    /// All views are equal.
    pub fn agrees(&self) -> bool {
        let view = self.seats[0].station.core.view();
        self.seats
            .iter()
            .all(|seat| seat.station.core.view() == view)
    }

    /// This station participates, and its list has each other station of the ring and nobody else.
    pub fn is_complete(&self, at: usize) -> bool {
        let seat = &self.seats[at];
        let others = self.seats.iter().map(Seat::number);
        seat.participates()
            && seat
                .listed()
                .eq(others.filter(|&number| number != seat.number()))
    }

    pub fn are_complete(&self) -> bool {
        (0..self.seats.len()).all(|at| self.is_complete(at))
    }

    /// Somebody counts a miss of somebody.
    pub fn has_misses(&self) -> bool {
        let misses = |seat: &Seat| seat.station.list.misses != [0; 256];
        self.seats.iter().any(misses)
    }

    /// Late frames that are due come, then every station gets one tick.
    pub fn tick(&mut self) {
        self.now += 1;
        self.deliver_late();
        for seat in &mut self.seats {
            seat.tick();
        }
    }

    /// Asks one station; the wire hands what it writes to each other one.
    pub fn ask(&mut self, at: usize) -> Option<Header> {
        self.ask_past(at, None)
    }

    /// Asks one station; what it writes is lost at one of the others, and handed to the rest.
    pub fn ask_past(&mut self, at: usize, deaf: Option<usize>) -> Option<Header> {
        let written = self.seats[at].ask()?;
        let octets = self.seats[at].answer.octets;
        let output = std::mem::take(&mut self.seats[at].output);
        let hears = |&hearer: &usize| hearer != at && Some(hearer) != deaf;
        for hearer in (0..self.seats.len()).filter(hears) {
            self.deliver(hearer, &output[..octets]);
        }
        self.seats[at].output = output;
        Some(written)
    }

    /// From here on the wire has no faults, and late frames never come.
    pub fn calm(&mut self) {
        self.fault_rate = 0;
        self.late.clear();
    }

    fn deliver(&mut self, hearer: usize, octets: &[u8]) {
        let seat = &mut self.seats[hearer];
        match fate(self.fault_rate, &mut self.random) {
            Fate::Heard => seat.hear(octets),
            Fate::Lost => self.faults.lost += 1,
            Fate::Repeated => {
                self.faults.repeated += 1;
                seat.hear(octets);
                seat.hear(octets);
            }
            Fate::Late(ticks) => {
                self.faults.late += 1;
                let due = self.now + ticks;
                self.late.push(Late {
                    due,
                    hearer,
                    octets: octets.to_vec(),
                });
            }
        }
    }

    fn deliver_late(&mut self) {
        for late in std::mem::take(&mut self.late) {
            if late.due <= self.now {
                self.seats[late.hearer].hear(&late.octets);
            } else {
                self.late.push(late);
            }
        }
    }
}

fn fate(rate: usize, random: &mut Random) -> Fate {
    if rate == 0 {
        return Fate::Heard;
    }
    match random.below(1_000_000) / rate {
        0 => Fate::Lost,
        1 => Fate::Repeated,
        2 => Fate::Late(1 + random.below(LATEST_TICKS) as u64),
        _ => Fate::Heard,
    }
}
