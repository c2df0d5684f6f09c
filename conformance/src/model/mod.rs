//! A plain station after paper 01, to hold the proved one against: the same rules in another form,
//! as one would write them for speed. State changes in place, each phase has what it needs and no
//! more, and no call allocates.

mod answers;
mod areas;
mod compare;
mod data;
pub mod frame;
mod list;
mod panel;
mod participant;
mod station;
pub mod waits;

pub use areas::{Areas, Part, BLOCK, MEMORY};
pub use data::Data;
pub use list::{Entry, List};
pub use panel::Figure;
pub use participant::Token;
pub use station::{Model, Settings, OUTPUT};

/// Why a call is refused, with the papers' numbers.
#[derive(Clone, Copy, Debug, PartialEq, Eq)]
pub enum Refusal {
    Cut = 1,
    Mark,
    Length,
    Code,
    Address,
    Taken,
    Area,
    Block,
    Stranger,
    NotDue,
    Buffer,
    Total = 14,
    Number = 15,
}

/// What a call that is not refused answers.
#[derive(Clone, Copy, Debug, PartialEq, Eq)]
pub enum Answer {
    Off,
    Done,
    Cyclic {
        token: Token,
        data: Data,
    },
    /// The octets of the frame that was written.
    Frame(usize),
}

type Outcome = Result<Answer, Refusal>;
