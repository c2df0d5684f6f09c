//! Calls as values, and the buffers that they lend.

use crate::boundary::{Answer, Settings};
use crate::engine::Engine;
use crate::model::{MEMORY, OUTPUT};
use crate::random::Random;

/// Octets of each buffer: more than is lent, so that a write behind what is lent shows.
pub const ROOM: usize = MEMORY + 64;

/// A call, with how many octets of each buffer it lends.
#[derive(Clone, Debug)]
pub enum Call {
    Start(Settings),
    Stop,
    Tick,
    Hear {
        octets: Vec<u8>,
        memory: usize,
        assembly: usize,
    },
    Ask {
        memory: usize,
        turn: usize,
        output: usize,
    },
}

impl Call {
    pub fn hear(octets: Vec<u8>) -> Call {
        Call::Hear {
            octets,
            memory: MEMORY,
            assembly: MEMORY,
        }
    }

    pub fn ask() -> Call {
        Call::Ask {
            memory: MEMORY,
            turn: MEMORY,
            output: OUTPUT,
        }
    }

    pub fn lends(&self) -> bool {
        matches!(self, Call::Hear { .. } | Call::Ask { .. })
    }

    pub fn describe(&self) -> String {
        match self {
            Call::Hear {
                octets,
                memory,
                assembly,
            } => {
                let hex: String = octets.iter().map(|octet| format!("{octet:02x}")).collect();
                format!(
                    "Hear, memory {memory}, assembly {assembly}, {} octets: {hex}",
                    octets.len()
                )
            }
            call => format!("{call:?}"),
        }
    }
}

/// One station's buffers.
#[derive(Clone, PartialEq, Eq)]
pub struct Buffers {
    pub octets: Vec<u8>,
    pub memory: Vec<u8>,
    pub assembly: Vec<u8>,
    pub turn: Vec<u8>,
    pub output: Vec<u8>,
}

impl Buffers {
    pub fn new(random: &mut Random) -> Buffers {
        let mut noise = || {
            let mut octets = vec![0; ROOM];
            random.fill(&mut octets);
            octets
        };
        Buffers {
            octets: Vec::new(),
            memory: noise(),
            assembly: noise(),
            turn: noise(),
            output: noise(),
        }
    }

    pub fn named(&self) -> [(&'static str, &Vec<u8>); 5] {
        [
            ("octets", &self.octets),
            ("memory", &self.memory),
            ("assembly", &self.assembly),
            ("turn", &self.turn),
            ("output", &self.output),
        ]
    }
}

/// Makes the call at a station with its buffers. The octets heard are its own copy too, so that a
/// write to them shows.
pub fn perform(station: &mut impl Engine, call: &Call, lent: &mut Buffers) -> Answer {
    match call {
        Call::Start(own) => station.start(*own),
        Call::Stop => station.stop(),
        Call::Tick => station.tick(),
        Call::Hear {
            octets,
            memory,
            assembly,
        } => {
            lent.octets.clone_from(octets);
            let assembly = &mut lent.assembly[..*assembly];
            station.hear(&lent.octets, &mut lent.memory[..*memory], assembly)
        }
        Call::Ask {
            memory,
            turn,
            output,
        } => {
            let output = &mut lent.output[..*output];
            station.ask(&lent.memory[..*memory], &mut lent.turn[..*turn], output)
        }
    }
}
