//! The panel's figure as a bystander counts it, from the phases and views before and after each
//! call.

use crate::boundary::{self, Core};
use crate::model::Figure;
use crate::names::PARTICIPATING;

/// Ticks between takings of the token since the station last began to participate.
#[derive(Clone, Copy, Debug, Default, PartialEq, Eq)]
pub struct Measured {
    pub takings: u64,
    pub running: u64,
    pub gap: u64,
}

/// What a call did that the states alone do not show.
#[derive(Clone, Copy, Debug, PartialEq, Eq)]
pub enum Step {
    Tick,
    Pass,
    Other,
}

impl Measured {
    pub fn after(self, step: Step, before: &Core, after: &Core) -> Measured {
        if after.phase() != PARTICIPATING {
            return Measured::default();
        }
        let ours = after.view() == after.own().number;
        if before.phase() != PARTICIPATING {
            return Measured {
                takings: ours as u64,
                ..Measured::default()
            };
        }
        let running = self.running + (step == Step::Tick) as u64;
        let taken = ours && (before.view() != before.own().number || step == Step::Pass);
        if taken {
            Measured {
                takings: self.takings + 1,
                running: 0,
                gap: running,
            }
        } else {
            Measured { running, ..self }
        }
    }

    /// The gap that the panel has to show, if there is one.
    pub fn shown(&self) -> Option<u64> {
        (self.takings >= 2).then_some(self.gap)
    }

    /// The whole figure, as paper 01 gives it for this gap.
    pub fn figure(&self) -> boundary::Figure {
        let figure = |gap| u16::try_from(gap).map_or(Figure::Over, Figure::Gap);
        self.shown().map_or(Figure::Nothing, figure).into()
    }
}
