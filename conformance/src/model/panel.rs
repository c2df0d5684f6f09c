//! The panel: ticks from one taking of the token to our next.

use std::fmt;

/// The most ticks that the panel shows as a figure.
const LARGEST: u32 = 65_535;

#[derive(Clone, Copy, Debug, Default, PartialEq, Eq)]
pub struct Panel {
    /// Since we began to participate; 2 stands for more.
    pub takings: u8,
    /// Ticks since the last taking, or since we began to participate; one above the largest stands
    /// for more.
    pub running: u32,
    /// What `running` was at the last taking.
    pub gap: u32,
}

impl Panel {
    pub fn tick(&mut self) {
        self.running += u32::from(self.running <= LARGEST);
    }

    pub fn take(&mut self) {
        self.takings += u8::from(self.takings < 2);
        self.gap = self.running;
        self.running = 0;
    }

    pub fn figure(&self) -> Figure {
        if self.takings < 2 {
            return Figure::Nothing;
        }
        u16::try_from(self.gap).map_or(Figure::Over, Figure::Gap)
    }
}

/// What the panel shows.
#[derive(Clone, Copy, Debug, PartialEq, Eq)]
pub enum Figure {
    Nothing,
    Over,
    /// Ticks, tenths of a millisecond.
    Gap(u16),
}

impl fmt::Display for Figure {
    fn fmt(&self, f: &mut fmt::Formatter) -> fmt::Result {
        match self {
            Figure::Nothing => write!(f, "--"),
            Figure::Over => write!(f, "OVER"),
            Figure::Gap(ticks) => write!(f, "{}.{}", ticks / 10, ticks % 10),
        }
    }
}
