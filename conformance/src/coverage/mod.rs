//! What came up in a run: each answer by call and phase, what the panel showed, and steps of note.

mod step;

use crate::boundary::{Answer, Figure};
use crate::call::Call;
use crate::names::*;
pub use step::Step;
use step::NOTED;

const CALLS: [&str; 5] = ["start", "stop", "tick", "hear", "ask"];
/// Kinds of answers: off, done, frame, the refusals by number after it, and from `CYCLIC` on four
/// data outcomes for each of the five token outcomes.
const KINDS: usize = CYCLIC + TOKENS.len() * DATA.len();
const FRAME: usize = 2;
const CYCLIC: usize = FRAME + 16;

/// The fewest times that each possible answer must have come up, and each figure and step of note:
/// some take 65,535 ticks.
const LEAST_ANSWERS: u64 = 100;
const LEAST_NOTED: u64 = 10;

pub struct Coverage {
    answers: [[[u64; KINDS]; 5]; 5],
    figures: [[u64; 3]; 5],
    noted: [u64; NOTED.len()],
}

fn call_index(call: &Call) -> usize {
    match call {
        Call::Start(_) => 0,
        Call::Stop => 1,
        Call::Tick => 2,
        Call::Hear { .. } => 3,
        Call::Ask { .. } => 4,
    }
}

fn kind(answer: &Answer) -> usize {
    match answer.word {
        WORD_OFF => 0,
        WORD_DONE => 1,
        WORD_FRAME => FRAME,
        WORD_REFUSED => FRAME + usize::from(answer.refusal),
        _ => CYCLIC + DATA.len() * usize::from(answer.token) + usize::from(answer.data),
    }
}

fn kind_name(kind: usize) -> String {
    match kind {
        0 => "off".into(),
        1 => "done".into(),
        FRAME => "frame".into(),
        CYCLIC.. => format!(
            "{}, {}",
            TOKENS[(kind - CYCLIC) / DATA.len()],
            DATA[(kind - CYCLIC) % DATA.len()]
        ),
        _ => format!("refused {}", kind - FRAME),
    }
}

/// Whether the paper lets this call in this phase be answered so.
fn is_possible(call: &str, phase: u8, kind: usize) -> bool {
    let off = phase == OFF;
    let refusal = match kind {
        FRAME..CYCLIC => kind - FRAME,
        _ => 0,
    };
    match (call, kind) {
        // Off: done, or refused for the settings alone. Not off: 10 comes before these.
        ("start", _) if off => kind == 1 || refusal == 5 || refusal == 7,
        ("start", _) => refusal == 10,
        ("stop", _) => kind == if off { FRAME + 10 } else { 1 },
        // A tick is never refused.
        ("tick", _) => kind == usize::from(!off),
        // Off, nothing is due.
        ("ask", FRAME) => !off,
        ("ask", _) => refusal == 10 || refusal == 11,
        ("hear", 0) => off,
        ("hear", 1) => !off,
        // Hearing writes no frame.
        ("hear", FRAME) => false,
        // A participant can get each token outcome with each data outcome. Before that there is no
        // token, and data are dropped.
        ("hear", CYCLIC..) => phase == PARTICIPATING || !off && kind == CYCLIC + 2,
        // 6 is not looked at off, 9 only as a participant; 10 is not for hearing, and 12 and 13 are
        // nobody's.
        ("hear", _) => match refusal {
            6 => !off,
            9 => phase == PARTICIPATING,
            10 | 12 | 13 => false,
            _ => true,
        },
        _ => false,
    }
}

impl Coverage {
    pub fn new() -> Coverage {
        Coverage {
            answers: [[[0; KINDS]; 5]; 5],
            figures: [[0; 3]; 5],
            noted: [0; NOTED.len()],
        }
    }

    pub fn count(&mut self, step: &Step) {
        let phase = usize::from(step.before.core.phase());
        self.answers[call_index(step.call)][phase][kind(step.answer)] += 1;
        // Most ticks only count.
        let quiet = step.ticks()
            && step.after.core.elapsed != 0
            && step.before.core.own() == step.after.core.own();
        if quiet {
            return;
        }
        for (count, (_, is_so)) in self.noted.iter_mut().zip(&NOTED) {
            *count += u64::from(is_so(step));
        }
    }

    pub fn count_figure(&mut self, phase: u8, figure: &Figure) {
        self.figures[usize::from(phase)][usize::from(figure.kind)] += 1;
    }

    /// Each count as (name, count, least, most).
    fn lines(&self) -> Vec<(String, u64, u64, u64)> {
        let mut lines = Vec::new();
        let mut line = |name: String, count, possible, least| match possible {
            true => lines.push((name, count, least, u64::MAX)),
            false if count > 0 => lines.push((name, count, 0, 0)),
            false => {}
        };
        for (call, by_phase) in CALLS.iter().zip(&self.answers) {
            for (phase, by_kind) in (0..).zip(by_phase) {
                for (kind, &count) in by_kind.iter().enumerate() {
                    let name = format!(
                        "{call}, {}: {}",
                        PHASES[usize::from(phase)],
                        kind_name(kind)
                    );
                    line(name, count, is_possible(call, phase, kind), LEAST_ANSWERS);
                }
            }
        }
        for (phase, figures) in (0..).zip(&self.figures) {
            for (kind, &count) in figures.iter().enumerate() {
                // Only a participant's panel shows something.
                let name = format!("panel, {}: {}", PHASES[usize::from(phase)], FIGURES[kind]);
                line(
                    name,
                    count,
                    phase == PARTICIPATING || kind == 0,
                    LEAST_NOTED,
                );
            }
        }
        for (&(name, _), &count) in NOTED.iter().zip(&self.noted) {
            line(name.into(), count, true, LEAST_NOTED);
        }
        lines
    }

    pub fn print(&self) {
        for (name, count, _, _) in self.lines() {
            println!("{count:>10}  {name}");
        }
    }

    /// Each count that is out of its bounds.
    pub fn wanting(&self) -> Vec<String> {
        let lines = self.lines().into_iter();
        let wanting = lines.filter(|(_, count, least, most)| count < least || count > most);
        wanting
            .map(|(name, count, least, _)| {
                format!("{name}: {count} times, at least {least} expected")
            })
            .collect()
    }
}

impl Default for Coverage {
    fn default() -> Coverage {
        Coverage::new()
    }
}
