//! The station and its calls.

use super::frame::{is_station, Code, Header};
use super::participant::Participant;
use super::{waits, Answer, Areas, Data, Entry, Figure, List, Outcome, Refusal, Token, MEMORY};

/// The fewest octets of an output: our longest frame.
pub const OUTPUT: usize = super::frame::HEADER + super::BLOCK;

const ROUNDS: u8 = 3;

/// What a station is started with.
#[derive(Clone, Copy, Debug, Default, PartialEq, Eq)]
pub struct Settings {
    pub number: u8,
    pub areas: Areas,
    /// Milliseconds.
    pub watch: u8,
}

#[derive(Clone, Copy, Debug, Default, PartialEq, Eq)]
pub(super) struct Joining {
    /// Ticks since the last token frame.
    pub quiet: u32,
    /// Ticks since the third round ended, until our request is due.
    pub waited: u32,
    pub rounds: u8,
    /// The last token destination heard.
    pub destination: u8,
}

impl Joining {
    fn is_learning(&self) -> bool {
        self.rounds < ROUNDS
    }

    fn is_request_due(&self, number: u8) -> bool {
        !self.is_learning() && self.waited == waits::until_request(number)
    }
}

#[derive(Clone, Copy, Debug, PartialEq, Eq)]
pub(super) enum Phase {
    Off,
    /// Stops counting when its trigger is due. The list is empty.
    Listening {
        ticks: u32,
    },
    Startup {
        ticks: u32,
        sent: bool,
    },
    Joining(Joining),
    Participating(Participant),
}

#[derive(Clone, Debug)]
pub struct Model {
    /// Off, only the number last started with.
    pub(super) own: Settings,
    pub(super) list: List,
    pub(super) phase: Phase,
}

impl Model {
    /// A station that was never started.
    pub fn new() -> Model {
        Model {
            own: Settings::default(),
            list: List::new(),
            phase: Phase::Off,
        }
    }

    pub fn start(&mut self, own: Settings) -> Outcome {
        if self.phase != Phase::Off {
            return Err(Refusal::NotDue);
        }
        if !is_station(own.number) || own.watch == 0 {
            return Err(Refusal::Address);
        }
        if !own.areas.fit() {
            return Err(Refusal::Area);
        }
        self.own = own;
        self.listen();
        Ok(Answer::Done)
    }

    pub fn stop(&mut self) -> Outcome {
        if self.phase == Phase::Off {
            return Err(Refusal::NotDue);
        }
        self.turn_off();
        Ok(Answer::Done)
    }

    pub fn tick(&mut self) -> Answer {
        let number = self.own.number;
        match &mut self.phase {
            Phase::Off => return Answer::Off,
            Phase::Listening { ticks } => {
                *ticks += u32::from(*ticks < waits::until_trigger(number))
            }
            Phase::Startup { ticks, .. } => {
                *ticks += 1;
                let ticks = *ticks;
                self.startup_tick(ticks);
            }
            Phase::Joining(joining) => {
                joining.quiet += 1;
                let waits = !joining.is_learning() && !joining.is_request_due(number);
                joining.waited += u32::from(waits);
                let joining = *joining;
                self.joining_tick(joining, waits);
            }
            Phase::Participating(participant) => {
                participant.panel.tick();
                participant.watched += 1;
                if participant.watched >= participant.watch(&self.list, &self.own) {
                    participant.end_watch(&mut self.list, number);
                }
            }
        }
        Answer::Done
    }

    /// Tells of a frame that can be read, whatever is answered to it.
    pub fn hear(
        &mut self,
        octets: &[u8],
        memory: &mut [u8],
        assembly: &mut [u8],
        told: &mut Option<Header>,
    ) -> Outcome {
        if memory.len() != MEMORY || assembly.len() != MEMORY {
            *told = Header::of(octets);
            return Err(Refusal::Buffer);
        }
        let header = Header::read(octets)?;
        if header.source == self.own.number && self.phase != Phase::Off {
            if !matches!(self.phase, Phase::Participating(_)) {
                self.turn_off();
            }
            *told = header.data(octets).ok().map(|_| header);
            return Err(Refusal::Taken);
        }
        let data = header.data(octets)?;
        *told = Some(header);
        match (header.code, &mut self.phase) {
            (_, Phase::Off) => Ok(Answer::Off),
            (Code::Trigger, _) => Ok(self.hear_trigger()),
            (Code::Request, _) => Ok(self.hear_request(&header)),
            (_, Phase::Participating(participant)) => {
                let (list, ours) = (&mut self.list, self.own.number);
                participant.hear(list, ours, &header, data, memory, assembly)
            }
            _ => Ok(self.learn(&header)),
        }
    }

    pub fn ask(&mut self, memory: &[u8], turn: &mut [u8], output: &mut [u8]) -> Outcome {
        if memory.len() != MEMORY || turn.len() != MEMORY || output.len() < OUTPUT {
            return Err(Refusal::Buffer);
        }
        let own = self.own;
        let octets = match &mut self.phase {
            Phase::Listening { ticks } if *ticks == waits::until_trigger(own.number) => {
                self.start_up();
                Header::trigger(own.number).write(&[], output)
            }
            Phase::Startup { ticks, sent }
                if !*sent && *ticks >= waits::until_request(own.number) =>
            {
                *sent = true;
                Header::request(&own).write(&[], output)
            }
            Phase::Joining(joining) if joining.is_request_due(own.number) => {
                let view = joining.destination;
                self.phase = Phase::Participating(Participant::new(own.number, view));
                Header::request(&own).write(&[], output)
            }
            Phase::Participating(participant) if participant.view == own.number => {
                let next = self.list.next(own.number, own.number);
                participant.send_block(&own, next, memory, turn, output)
            }
            _ => return Err(Refusal::NotDue),
        };
        Ok(Answer::Frame(octets))
    }

    pub fn show(&self) -> Figure {
        match &self.phase {
            Phase::Participating(participant) => participant.panel.figure(),
            _ => Figure::Nothing,
        }
    }

    fn listen(&mut self) {
        self.list.clear();
        self.phase = Phase::Listening { ticks: 0 };
    }

    fn start_up(&mut self) {
        self.phase = Phase::Startup {
            ticks: 0,
            sent: false,
        };
    }

    fn turn_off(&mut self) {
        self.own = Settings {
            number: self.own.number,
            ..Settings::default()
        };
        self.list.clear();
        self.phase = Phase::Off;
    }

    /// Our request falls due: if our areas overlap a listed station's, we give ours up.
    fn give_way(&mut self) {
        if self.list.overlaps(&self.own.areas, self.own.number) {
            self.own.areas.empty();
        }
    }

    fn startup_tick(&mut self, ticks: u32) {
        if ticks == waits::until_request(self.own.number) {
            self.give_way();
        } else if ticks == waits::ACCEPTANCE && self.list.is_empty() {
            self.listen();
        } else if ticks == waits::ACCEPTANCE {
            let view = self.list.smallest_with(self.own.number);
            self.phase = Phase::Participating(Participant::new(self.own.number, view));
        }
    }

    fn joining_tick(&mut self, joining: Joining, waited: bool) {
        if joining.quiet == waits::TOKEN_DETECTION {
            self.listen();
        } else if waited && joining.is_request_due(self.own.number) {
            self.give_way();
        }
    }

    fn hear_trigger(&mut self) -> Answer {
        if matches!(self.phase, Phase::Listening { .. }) {
            self.start_up();
        }
        Answer::Done
    }

    fn hear_request(&mut self, header: &Header) -> Answer {
        match &mut self.phase {
            Phase::Startup { ticks, .. } => {
                let ours_counts = *ticks >= waits::until_request(self.own.number);
                self.enlist(header, ours_counts);
            }
            Phase::Participating(participant) => {
                participant.gathering.drop_from(header.source);
                self.enlist(header, true);
            }
            _ => {}
        }
        Answer::Done
    }

    /// Lists the source. Whoever overlaps another listed station, or ours once our request has
    /// fallen due, gets no areas.
    fn enlist(&mut self, header: &Header, ours_counts: bool) {
        let mut areas = header.areas;
        if self.list.overlaps(&areas, header.source)
            || ours_counts && self.own.areas.overlap(&areas)
        {
            areas.empty();
        }
        let entry = Entry {
            areas,
            watch: header.watch,
            misses: 0,
        };
        self.list.insert(header.source, entry);
    }

    /// A cyclic frame before we participate: a token frame takes us into joining, which learns for
    /// three rounds.
    fn learn(&mut self, header: &Header) -> Answer {
        let heard = Answer::Cyclic {
            token: Token::None,
            data: Data::Dropped,
        };
        let has_token = header.has_token();
        let mut joining = match self.phase {
            Phase::Joining(joining) => joining,
            _ if has_token => {
                self.list.clear();
                Joining::default()
            }
            _ => return heard,
        };
        if joining.is_learning() {
            // Learning ends before our request is due, so our areas do not count yet.
            self.enlist(header, false);
            joining.rounds += u8::from(has_token && header.destination <= header.source);
        }
        if has_token {
            joining.quiet = 0;
            joining.destination = header.destination;
        }
        self.phase = Phase::Joining(joining);
        heard
    }
}

impl Default for Model {
    fn default() -> Model {
        Model::new()
    }
}
