//! The model in the boundary's types: what it is started with, and the whole state as the header
//! describes it.

use super::data::{Gathered, Gathering};
use super::panel::Panel;
use super::participant::Participant;
use super::station::{Joining, Phase};
use super::{Areas, Entry, List, Model, Part, Settings};
use crate::boundary;
use crate::names::*;

/// Two structs with fields of the same names and types that turn into each other.
macro_rules! alike {
    ($name:ident: $($field:ident),+) => {
        impl From<boundary::$name> for $name {
            fn from(from: boundary::$name) -> $name {
                $name { $($field: from.$field.into()),+ }
            }
        }

        impl From<$name> for boundary::$name {
            fn from(from: $name) -> boundary::$name {
                boundary::$name { $($field: from.$field.into()),+ }
            }
        }
    };
}

alike!(Part: address, size);
alike!(Areas: one, two);
alike!(Settings: number, areas, watch);

impl From<&Entry> for boundary::Entry {
    fn from(entry: &Entry) -> boundary::Entry {
        boundary::Entry {
            listed: true,
            areas: entry.areas.into(),
            watch: entry.watch,
            misses: entry.misses,
        }
    }
}

impl From<&List> for boundary::List {
    fn from(list: &List) -> boundary::List {
        let mut shown = boundary::List::EMPTY;
        for number in list.numbers() {
            shown.set(number, list.get(number).expect("listed").into());
        }
        shown
    }
}

/// What a phase does not use is 0.
impl From<&Model> for boundary::Core {
    fn from(model: &Model) -> boundary::Core {
        let mut core = boundary::Core::default();
        core.set_own(model.own.into());
        match model.phase {
            Phase::Off => core.phase = OFF.into(),
            Phase::Listening { ticks } => {
                core.phase = LISTENING.into();
                core.elapsed = ticks;
            }
            Phase::Startup { ticks, sent } => {
                core.phase = STARTUP.into();
                core.elapsed = ticks;
                core.sent = sent.into();
            }
            Phase::Joining(joining) => joining.show(&mut core),
            Phase::Participating(participant) => participant.show(&mut core),
        }
        core
    }
}

impl From<&Model> for boundary::Station {
    fn from(model: &Model) -> boundary::Station {
        boundary::Station {
            core: model.into(),
            list: (&model.list).into(),
        }
    }
}

impl Joining {
    fn show(&self, core: &mut boundary::Core) {
        core.phase = JOINING.into();
        core.elapsed = self.quiet;
        core.waited = self.waited;
        core.rounds = self.rounds.into();
        core.view = self.destination.into();
    }
}

impl Participant {
    fn show(&self, core: &mut boundary::Core) {
        core.phase = PARTICIPATING.into();
        core.elapsed = self.watched;
        core.view = self.view.into();
        core.block = self.sent.into();
        core.takings = self.panel.takings.into();
        core.running = self.panel.running;
        core.gap = self.panel.gap;
        if let Some(gathered) = self.gathering.0 {
            core.source = gathered.source.into();
            core.blocks = gathered.blocks.into();
        }
    }
}

/// For states that calls can leave.
impl From<&boundary::Station> for Model {
    fn from(station: &boundary::Station) -> Model {
        Model {
            own: station.core.own().into(),
            list: (&station.list).into(),
            phase: (&station.core).into(),
        }
    }
}

impl From<&boundary::List> for List {
    fn from(shown: &boundary::List) -> List {
        let mut list = List::new();
        for number in shown.numbers() {
            list.insert(number, shown.entry(number).into());
        }
        list
    }
}

impl From<boundary::Entry> for Entry {
    fn from(entry: boundary::Entry) -> Entry {
        Entry {
            areas: entry.areas.into(),
            watch: entry.watch,
            misses: entry.misses,
        }
    }
}

impl From<&boundary::Core> for Phase {
    fn from(core: &boundary::Core) -> Phase {
        match core.phase() {
            LISTENING => Phase::Listening {
                ticks: core.elapsed,
            },
            STARTUP => Phase::Startup {
                ticks: core.elapsed,
                sent: core.sent(),
            },
            JOINING => Phase::Joining(Joining {
                quiet: core.elapsed,
                waited: core.waited,
                rounds: core.rounds(),
                destination: core.view(),
            }),
            PARTICIPATING => Phase::Participating(Participant {
                view: core.view(),
                watched: core.elapsed,
                sent: core.block(),
                gathering: core.into(),
                panel: core.into(),
            }),
            _ => Phase::Off,
        }
    }
}

impl From<&boundary::Core> for Gathering {
    fn from(core: &boundary::Core) -> Gathering {
        let (source, blocks) = (core.source(), core.blocks());
        Gathering(((source, blocks) != (0, 0)).then_some(Gathered { source, blocks }))
    }
}

impl From<&boundary::Core> for Panel {
    fn from(core: &boundary::Core) -> Panel {
        Panel {
            takings: core.takings(),
            running: core.running,
            gap: core.gap,
        }
    }
}
