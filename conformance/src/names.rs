//! The header's numbers and their names, for answers that a person reads.

use crate::boundary::Answer;

pub const OFF: u8 = 0;
pub const LISTENING: u8 = 1;
pub const STARTUP: u8 = 2;
pub const JOINING: u8 = 3;
pub const PARTICIPATING: u8 = 4;
pub const PHASES: [&str; 5] = ["off", "listening", "startup", "joining", "participating"];

pub const WORD_OFF: u8 = 0;
pub const WORD_DONE: u8 = 1;
pub const WORD_CYCLIC: u8 = 2;
pub const WORD_FRAME: u8 = 3;
pub const WORD_REFUSED: u8 = 4;

pub const KEPT: u8 = 0;
pub const WRITTEN: u8 = 1;
pub const DROPPED: u8 = 2;
pub const REPEAT: u8 = 3;

pub const TOKENS: [&str; 5] = [
    "none",
    "passed on",
    "ours now",
    "rival passed over",
    "rival won",
];
pub const DATA: [&str; 4] = ["kept", "written", "dropped", "repeat"];
pub const FIGURES: [&str; 3] = ["nothing", "over", "gap"];

fn name<'a>(names: &[&'a str], number: u8) -> &'a str {
    names
        .get(usize::from(number))
        .copied()
        .unwrap_or("no such number")
}

pub fn phase(number: u8) -> &'static str {
    name(&PHASES, number)
}

pub fn answer(answer: &Answer) -> String {
    match answer.word {
        WORD_OFF => "off".into(),
        WORD_DONE => "done".into(),
        WORD_CYCLIC => format!(
            "cyclic: {}, {}",
            name(&TOKENS, answer.token),
            name(&DATA, answer.data)
        ),
        WORD_FRAME => format!("frame of {} octets", answer.octets),
        WORD_REFUSED => format!("refused {}", answer.refusal),
        _ => format!("{answer:?}"),
    }
}
