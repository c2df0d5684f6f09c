//! The types and calls of `include/flnet_station.h`, and the calls on borrowed slices.

use crate::names::{OFF, PARTICIPATING};

#[repr(C)]
#[derive(Clone, Copy, Debug, Default, PartialEq, Eq)]
pub struct Part {
    pub address: u16,
    pub size: u16,
}

#[repr(C)]
#[derive(Clone, Copy, Debug, Default, PartialEq, Eq)]
pub struct Areas {
    pub one: Part,
    pub two: Part,
}

#[repr(C)]
#[derive(Clone, Copy, Debug, Default, PartialEq, Eq)]
pub struct Settings {
    pub number: u8,
    pub areas: Areas,
    pub watch: u8,
}

/// The station list, in arrays by station number, and octets behind them that no call may change.
#[repr(C)]
#[derive(Clone, Copy, Debug, PartialEq, Eq)]
pub struct List {
    pub listed: [bool; 256],
    pub areas: [u16; 1024],
    pub watch: [u8; 256],
    pub misses: [u8; 256],
    behind: [u8; 64],
}

/// What the list has of one station.
#[derive(Clone, Copy, Debug, Default, PartialEq, Eq)]
pub struct Entry {
    pub listed: bool,
    pub areas: Areas,
    pub watch: u8,
    pub misses: u8,
}

impl List {
    pub const EMPTY: List = List {
        listed: [false; 256],
        areas: [0; 1024],
        watch: [0; 256],
        misses: [0; 256],
        behind: [0x5a; 64],
    };

    pub fn entry(&self, number: u8) -> Entry {
        let place = usize::from(number);
        let areas = &self.areas[4 * place..4 * place + 4];
        Entry {
            listed: self.listed[place],
            areas: Areas {
                one: Part {
                    address: areas[0],
                    size: areas[1],
                },
                two: Part {
                    address: areas[2],
                    size: areas[3],
                },
            },
            watch: self.watch[place],
            misses: self.misses[place],
        }
    }

    /// The numbers that are listed, ascending.
    pub fn numbers(&self) -> impl Iterator<Item = u8> + '_ {
        (0..=255).filter(|&number| self.listed[usize::from(number)])
    }

    pub fn set(&mut self, number: u8, entry: Entry) {
        let place = usize::from(number);
        let Areas { one, two } = entry.areas;
        self.listed[place] = entry.listed;
        self.areas[4 * place..4 * place + 4].copy_from_slice(&[
            one.address,
            one.size,
            two.address,
            two.size,
        ]);
        self.watch[place] = entry.watch;
        self.misses[place] = entry.misses;
    }
}

/// How much of a number counts.
const OCTET: u32 = 0xff;
const OCTETS: u32 = 0xffff;
const FLAG: u32 = 1;
const ALL: u32 = u32::MAX;

/// The numbers of a core in their order, with how much of each counts.
macro_rules! core {
    ($($name:ident: $counts:expr),+) => {
        /// A station's state but for its list, in numbers of which some count by their low part only.
        #[repr(C)]
        #[derive(Clone, Copy, Debug, Default, PartialEq, Eq)]
        pub struct Core {
            $(pub $name: u32),+
        }

        impl Core {
            /// The numbers by their names.
            pub fn named(&self) -> [(&'static str, u32); 18] {
                [$((stringify!($name), self.$name)),+]
            }

            /// Each number drawn in its turn.
            pub fn drawn(mut draw: impl FnMut() -> u32) -> Core {
                Core { $($name: draw()),+ }
            }

            /// The low parts of one core with what stands above them in another.
            pub fn below(&self, above: &Core) -> Core {
                Core { $($name: self.$name & $counts | above.$name & !$counts),+ }
            }
        }
    };
}

core! {
    phase: OCTET,
    number: OCTET,
    address_one: OCTETS,
    size_one: OCTETS,
    address_two: OCTETS,
    size_two: OCTETS,
    watch: OCTET,
    view: OCTET,
    block: OCTET,
    elapsed: ALL,
    waited: ALL,
    rounds: OCTET,
    sent: FLAG,
    source: OCTET,
    blocks: OCTET,
    takings: OCTET,
    running: ALL,
    gap: ALL
}

/// What the numbers stand for.
impl Core {
    /// Any number but those of the phases is off.
    pub fn phase(&self) -> u8 {
        match self.phase as u8 {
            phase @ OFF..=PARTICIPATING => phase,
            _ => OFF,
        }
    }

    pub fn own(&self) -> Settings {
        let part = |address, size| Part {
            address: address as u16,
            size: size as u16,
        };
        Settings {
            number: self.number as u8,
            areas: Areas {
                one: part(self.address_one, self.size_one),
                two: part(self.address_two, self.size_two),
            },
            watch: self.watch as u8,
        }
    }

    pub fn set_own(&mut self, own: Settings) {
        let Areas { one, two } = own.areas;
        self.number = own.number.into();
        self.address_one = one.address.into();
        self.size_one = one.size.into();
        self.address_two = two.address.into();
        self.size_two = two.size.into();
        self.watch = own.watch.into();
    }

    pub fn view(&self) -> u8 {
        self.view as u8
    }

    pub fn block(&self) -> u8 {
        self.block as u8
    }

    pub fn rounds(&self) -> u8 {
        self.rounds as u8
    }

    pub fn sent(&self) -> bool {
        self.sent & FLAG == 1
    }

    pub fn source(&self) -> u8 {
        self.source as u8
    }

    pub fn blocks(&self) -> u8 {
        self.blocks as u8
    }

    pub fn takings(&self) -> u8 {
        self.takings as u8
    }

    /// What counts of the numbers, with nothing above it.
    pub fn counted(&self) -> Core {
        Core {
            phase: self.phase().into(),
            ..self.below(&Core::default())
        }
    }

    /// These numbers when a call has left a core that counts as that one: what stands above stays,
    /// and so does a number that stands for the phase already.
    pub fn kept(&self, left: &Core) -> Core {
        let kept = left.counted().below(self);
        match self.phase() == left.phase() {
            true => Core {
                phase: self.phase,
                ..kept
            },
            false => kept,
        }
    }
}

/// A station as a host keeps it.
#[derive(Clone, Copy, Debug, PartialEq, Eq)]
pub struct Station {
    pub core: Core,
    pub list: List,
}

/// A frame's code, and where it comes from and goes to.
#[repr(C)]
#[derive(Clone, Copy, Debug, Default, PartialEq, Eq)]
pub struct Route {
    pub code: u16,
    pub source: u8,
    pub destination: u8,
}

#[repr(C)]
#[derive(Clone, Copy, Debug, Default, PartialEq, Eq)]
pub struct Answer {
    pub word: u8,
    pub refusal: u8,
    pub token: u8,
    pub data: u8,
    pub frame: Route,
    pub octets: usize,
}

#[repr(C)]
#[derive(Clone, Copy, Debug, Default, PartialEq, Eq)]
pub struct Figure {
    pub kind: u8,
    pub ticks: u16,
    pub octets: [u8; 6],
    pub length: usize,
}

impl Figure {
    pub fn text(&self) -> &str {
        std::str::from_utf8(&self.octets[..self.length]).expect("ASCII")
    }
}

/// How many ticks bring no news, where the one after them does.
#[repr(C)]
#[derive(Clone, Copy, Debug, Default, PartialEq, Eq)]
pub struct Quiet {
    pub ends: bool,
    pub ticks: u32,
}

mod calls {
    use super::{Answer, Core, Figure, Quiet, Settings};

    extern "C" {
        pub fn flnet_new(
            core: *mut Core,
            listed: *mut bool,
            areas: *mut u16,
            watch: *mut u8,
            misses: *mut u8,
        );
        pub fn flnet_start(
            core: *mut Core,
            listed: *mut bool,
            areas: *mut u16,
            watch: *mut u8,
            misses: *mut u8,
            own: Settings,
        ) -> Answer;
        pub fn flnet_stop(
            core: *mut Core,
            listed: *mut bool,
            areas: *mut u16,
            watch: *mut u8,
            misses: *mut u8,
        ) -> Answer;
        pub fn flnet_tick(
            core: *mut Core,
            listed: *mut bool,
            areas: *mut u16,
            watch: *mut u8,
            misses: *mut u8,
        ) -> Answer;
        pub fn flnet_ticks(
            core: *mut Core,
            listed: *mut bool,
            areas: *mut u16,
            watch: *mut u8,
            misses: *mut u8,
            count: u32,
        ) -> Answer;
        pub fn flnet_quiet(core: *const Core, listed: *const bool, watch: *const u8) -> Quiet;
        pub fn flnet_hear(
            core: *mut Core,
            listed: *mut bool,
            areas: *mut u16,
            watch: *mut u8,
            misses: *mut u8,
            octets: *const u8,
            octets_length: usize,
            memory: *mut u8,
            memory_length: usize,
            assembly: *mut u8,
            assembly_length: usize,
        ) -> Answer;
        pub fn flnet_ask(
            core: *mut Core,
            listed: *mut bool,
            areas: *mut u16,
            watch: *mut u8,
            misses: *mut u8,
            memory: *const u8,
            memory_length: usize,
            turn: *mut u8,
            turn_length: usize,
            output: *mut u8,
            output_length: usize,
        ) -> Answer;
        pub fn flnet_show(core: *const Core) -> Figure;
    }
}

/// Makes a call with the station's core and list.
macro_rules! call {
    ($name:ident, $station:ident $(, $argument:expr)*) => {{
        let Station { core, list } = $station;
        // SAFETY: the core and the list's arrays have the header's lengths, and each other pointer
        // comes with its slice's length. What is written is borrowed by `&mut`, so that nothing
        // overlaps.
        unsafe {
            calls::$name(
                core,
                list.listed.as_mut_ptr(),
                list.areas.as_mut_ptr(),
                list.watch.as_mut_ptr(),
                list.misses.as_mut_ptr(),
                $($argument),*
            )
        }
    }};
}

impl Station {
    /// A station that was never started.
    pub fn new() -> Station {
        let mut station = Station {
            core: Core::default(),
            list: List::EMPTY,
        };
        station.renew();
        station
    }

    /// Becomes a station that was never started.
    pub fn renew(&mut self) {
        call!(flnet_new, self)
    }

    pub fn start(&mut self, own: Settings) -> Answer {
        call!(flnet_start, self, own)
    }

    pub fn stop(&mut self) -> Answer {
        call!(flnet_stop, self)
    }

    pub fn tick(&mut self) -> Answer {
        call!(flnet_tick, self)
    }

    pub fn ticks(&mut self, count: u32) -> Answer {
        call!(flnet_ticks, self, count)
    }

    pub fn quiet(&self) -> Quiet {
        // SAFETY: the core and the flags have the header's lengths and are only read.
        unsafe {
            calls::flnet_quiet(
                &self.core,
                self.list.listed.as_ptr(),
                self.list.watch.as_ptr(),
            )
        }
    }

    pub fn hear(&mut self, octets: &[u8], memory: &mut [u8], assembly: &mut [u8]) -> Answer {
        call!(
            flnet_hear,
            self,
            octets.as_ptr(),
            octets.len(),
            memory.as_mut_ptr(),
            memory.len(),
            assembly.as_mut_ptr(),
            assembly.len()
        )
    }

    pub fn ask(&mut self, memory: &[u8], turn: &mut [u8], output: &mut [u8]) -> Answer {
        call!(
            flnet_ask,
            self,
            memory.as_ptr(),
            memory.len(),
            turn.as_mut_ptr(),
            turn.len(),
            output.as_mut_ptr(),
            output.len()
        )
    }

    pub fn show(&self) -> Figure {
        // SAFETY: the core has the header's length and is only read.
        unsafe { calls::flnet_show(&self.core) }
    }
}

impl Default for Station {
    fn default() -> Station {
        Station::new()
    }
}
