//! A call with the states around it, and which steps are of note.

use crate::boundary::{Answer, Station};
use crate::call::Call;
use crate::choices::due::watch;
use crate::model::frame::at;
use crate::model::waits;
use crate::names::*;

/// A call with the states around it.
pub struct Step<'a> {
    pub before: &'a Station,
    pub call: &'a Call,
    pub answer: &'a Answer,
    pub after: &'a Station,
}

impl Step<'_> {
    fn goes(&self, from: u8, to: u8) -> bool {
        self.before.core.phase() == from && self.after.core.phase() == to
    }

    fn stays(&self) -> bool {
        self.goes(PARTICIPATING, PARTICIPATING)
    }

    pub fn ticks(&self) -> bool {
        matches!(self.call, Call::Tick)
    }

    fn asks(&self) -> bool {
        matches!(self.call, Call::Ask { .. }) && self.answer.word == WORD_FRAME
    }

    /// The source of a frame that was heard and not refused.
    fn heard(&self) -> Option<(u8, &[u8])> {
        match self.call {
            Call::Hear { octets, .. } if self.answer.word != WORD_REFUSED => {
                Some((octets[at::SNA], octets))
            }
            _ => None,
        }
    }

    fn heard_done(&self) -> Option<u8> {
        self.heard()
            .filter(|_| self.answer.word == WORD_DONE)
            .map(|(source, _)| source)
    }

    fn held(&self) -> bool {
        self.before.core.view() == self.before.core.own().number
    }

    fn holds(&self) -> bool {
        self.after.core.view() == self.after.core.own().number
    }

    fn written(&self) -> bool {
        self.answer.word == WORD_CYCLIC && self.answer.data == WRITTEN
    }

    /// A cyclic frame with the source and the number of the last block still gathered, with this
    /// data outcome.
    fn latest_again(&self, data: u8) -> bool {
        let core = &self.before.core;
        self.answer.word == WORD_CYCLIC
            && self.answer.data == data
            && core.blocks() > 0
            && self.heard().is_some_and(|(source, octets)| {
                source == core.source() && octets[at::CBN] == core.blocks()
            })
    }

    fn strikes(&self) -> bool {
        let view = self.before.core.view();
        self.stays()
            && self.ticks()
            && self.before.list.entry(view).listed
            && !self.after.list.entry(view).listed
    }

    fn drops_gathered(&self) -> bool {
        self.before.core.blocks() > 0 && self.after.core.blocks() == 0
    }

    fn ends_watch(&self) -> bool {
        self.stays() && self.ticks() && self.after.core.elapsed == 0
    }

    /// The watch ends with a listed station in view whose time and ours meet a test.
    fn ends_by(&self, test: fn(u8, u8) -> bool) -> bool {
        let entry = self.before.list.entry(self.before.core.view());
        let own = self.before.core.own().watch;
        self.ends_watch() && !self.held() && entry.listed && test(entry.watch, own)
    }

    /// A request of the station in view gives a running watch another length.
    fn changes_watch(&self, test: fn(u32, u32) -> bool) -> bool {
        self.stays()
            && self.heard_done().is_some()
            && self.before.core.elapsed > 0
            && test(watch(self.before), watch(self.after))
    }

    /// A source that brought areas and is listed without.
    fn crowded(&self) -> bool {
        self.heard().is_some_and(|(source, octets)| {
            let areas = self.after.list.entry(source).areas;
            let empty = areas.one.size == 0 && areas.two.size == 0;
            let brought = octets[at::C_SZ1..at::C_AD2] != [0, 0]
                || octets[at::C_SZ2..at::C_SZ2 + 2] != [0, 0];
            self.after.list.entry(source).listed
                && empty
                && brought
                && self.before.list != self.after.list
        })
    }

    fn gap_becomes(&self, gap: u32) -> bool {
        self.after.core.takings() == 2
            && self.after.core.gap == gap
            && self.before.core.running >= gap - 1
    }
}

pub type Noted = (&'static str, fn(&Step) -> bool);

pub const NOTED: [Noted; 48] = [
    ("trigger sent", |s| s.goes(LISTENING, STARTUP) && s.asks()),
    ("trigger heard in listening", |s| {
        s.goes(LISTENING, STARTUP) && !s.asks()
    }),
    ("trigger heard while ours is due", |s| {
        s.goes(LISTENING, STARTUP)
            && !s.asks()
            && s.before.core.elapsed == waits::until_trigger(s.before.core.own().number)
    }),
    ("token heard in listening", |s| s.goes(LISTENING, JOINING)),
    ("token heard while our trigger is due", |s| {
        s.goes(LISTENING, JOINING)
            && s.before.core.elapsed == waits::until_trigger(s.before.core.own().number)
    }),
    ("token heard in ring startup", |s| s.goes(STARTUP, JOINING)),
    ("ring startup ends with nobody else", |s| {
        s.goes(STARTUP, LISTENING)
    }),
    ("ring startup ends, our request sent", |s| {
        s.goes(STARTUP, PARTICIPATING) && s.before.core.sent()
    }),
    ("ring startup ends, our request lapses", |s| {
        s.goes(STARTUP, PARTICIPATING) && !s.before.core.sent()
    }),
    ("joining ends for want of a token", |s| {
        s.goes(JOINING, LISTENING)
    }),
    ("joining ends, our number in view", |s| {
        s.goes(JOINING, PARTICIPATING) && s.holds()
    }),
    ("joining ends, a stranger in view", |s| {
        s.goes(JOINING, PARTICIPATING)
            && !s.holds()
            && !s.after.list.entry(s.after.core.view()).listed
    }),
    ("third round ends", |s| {
        s.goes(JOINING, JOINING) && s.before.core.rounds() == 2 && s.after.core.rounds() == 3
    }),
    ("cyclic frame after the third round", |s| {
        s.goes(JOINING, JOINING) && s.before.core.rounds() == 3 && s.heard().is_some()
    }),
    ("our sizes become 0", |s| {
        s.ticks() && s.before.core.own().areas != s.after.core.own().areas
    }),
    ("listed without areas for an overlap", |s| s.crowded()),
    ("listed again by a participant", |s| {
        s.stays()
            && s.heard_done()
                .is_some_and(|source| s.before.list.entry(source).listed)
    }),
    ("listed again, gathered dropped", |s| {
        s.stays() && s.heard_done().is_some() && s.drops_gathered()
    }),
    ("listed anew by a participant", |s| {
        s.stays()
            && s.heard_done().is_some_and(|source| {
                !s.before.list.entry(source).listed && s.after.list.entry(source).listed
            })
    }),
    ("misses cleared by a cyclic frame", |s| {
        s.answer.word == WORD_CYCLIC
            && s.heard()
                .is_some_and(|(source, _)| s.before.list.entry(source).misses > 0)
    }),
    ("struck", |s| s.strikes()),
    ("struck, gathered dropped", |s| {
        s.strikes() && s.drops_gathered()
    }),
    ("watch ends, a stranger in view", |s| {
        s.ends_watch() && !s.held() && !s.before.list.entry(s.before.core.view()).listed
    }),
    ("watch ends, token taken", |s| {
        s.ends_watch() && !s.held() && s.holds()
    }),
    ("watch ends, token given up", |s| {
        s.ends_watch() && s.held() && !s.holds()
    }),
    ("watch ends, alone", |s| {
        s.ends_watch() && s.held() && s.holds()
    }),
    ("watch ends by a longer time than ours", |s| {
        s.ends_by(|listed, own| listed > own)
    }),
    ("watch ends by a shorter time than ours", |s| {
        s.ends_by(|listed, own| 0 < listed && listed < own)
    }),
    ("watch ends by a listed time of 0", |s| {
        s.ends_by(|listed, own| listed == 0 && own > 1)
    }),
    ("running watch prolonged", |s| {
        s.changes_watch(|before, after| before < after)
    }),
    ("running watch shortened", |s| {
        s.changes_watch(|before, after| after < before)
    }),
    ("watch ends past its time", |s| {
        s.ends_watch() && s.before.core.elapsed >= watch(s.before)
    }),
    ("divided turn written", |s| {
        s.written() && s.before.core.blocks() > 0
    }),
    ("turn of 17 blocks written", |s| {
        s.written() && s.before.core.blocks() == 16
    }),
    ("block 1 in the midst of a turn", |s| {
        s.before.core.blocks() > 0 && s.after.core.blocks() == 1
    }),
    ("block 1 repeated", |s| {
        s.latest_again(REPEAT) && s.before.core.blocks() == 1
    }),
    ("later block repeated", |s| {
        s.latest_again(REPEAT) && s.before.core.blocks() > 1
    }),
    ("16th block repeated", |s| {
        s.latest_again(REPEAT) && s.before.core.blocks() == 16
    }),
    ("misses cleared by a repeat", |s| {
        s.latest_again(REPEAT) && s.before.list.entry(s.before.core.source()).misses > 0
    }),
    ("block 1 again with other octets", |s| s.latest_again(KEPT)),
    ("later block again with other octets", |s| {
        s.latest_again(DROPPED) && s.before.core.blocks() > 1
    }),
    ("gathered dropped by a cyclic frame", |s| {
        s.drops_gathered() && s.answer.word == WORD_CYCLIC && s.answer.data == DROPPED
    }),
    ("our divided turn sent", |s| {
        s.asks() && s.before.core.block() > 0 && s.after.core.block() == 0
    }),
    ("our turn of 17 blocks sent", |s| {
        s.asks() && s.before.core.block() == 16 && s.after.core.block() == 0
    }),
    ("token lost between our blocks", |s| {
        s.before.core.block() > 0
            && s.after.core.phase() == PARTICIPATING
            && !s.asks()
            && !s.holds()
    }),
    ("our pass to ourselves", |s| {
        s.stays() && s.asks() && s.holds() && s.after.core.block() == 0
    }),
    ("gap of 65,535", |s| s.gap_becomes(65_535)),
    ("gap over", |s| s.gap_becomes(65_536)),
];
