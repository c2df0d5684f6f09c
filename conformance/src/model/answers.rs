//! The model's calls in the boundary's types: what is handed in, and what is answered.

use super::frame::Header;
use super::{Answer, Figure, Model, Refusal};
use crate::boundary;
use crate::engine::Engine;
use crate::names::*;

impl Engine for Model {
    fn start(&mut self, own: boundary::Settings) -> boundary::Answer {
        outcome(Model::start(self, own.into()))
    }

    fn stop(&mut self) -> boundary::Answer {
        outcome(Model::stop(self))
    }

    fn tick(&mut self) -> boundary::Answer {
        Model::tick(self).into()
    }

    fn hear(&mut self, octets: &[u8], memory: &mut [u8], assembly: &mut [u8]) -> boundary::Answer {
        let mut told = None;
        let answer = outcome(Model::hear(self, octets, memory, assembly, &mut told));
        boundary::Answer {
            frame: told.map_or_else(Default::default, Into::into),
            ..answer
        }
    }

    fn ask(&mut self, memory: &[u8], turn: &mut [u8], output: &mut [u8]) -> boundary::Answer {
        outcome(Model::ask(self, memory, turn, output))
    }

    fn show(&self) -> boundary::Figure {
        Model::show(self).into()
    }
}

impl From<Header> for boundary::Route {
    fn from(header: Header) -> boundary::Route {
        boundary::Route {
            code: header.code as u16,
            source: header.source,
            destination: header.destination,
        }
    }
}

fn outcome(outcome: Result<Answer, Refusal>) -> boundary::Answer {
    outcome.map_or_else(
        |refusal| boundary::Answer {
            word: WORD_REFUSED,
            refusal: refusal as u8,
            ..Default::default()
        },
        Into::into,
    )
}

impl From<Answer> for boundary::Answer {
    fn from(answer: Answer) -> boundary::Answer {
        let word = |word| boundary::Answer {
            word,
            ..Default::default()
        };
        match answer {
            Answer::Off => word(WORD_OFF),
            Answer::Done => word(WORD_DONE),
            Answer::Cyclic { token, data } => boundary::Answer {
                token: token as u8,
                data: data as u8,
                ..word(WORD_CYCLIC)
            },
            Answer::Frame(octets) => boundary::Answer {
                octets,
                ..word(WORD_FRAME)
            },
        }
    }
}

impl From<Figure> for boundary::Figure {
    fn from(figure: Figure) -> boundary::Figure {
        let (kind, ticks) = match figure {
            Figure::Nothing => (0, 0),
            Figure::Over => (1, 0),
            Figure::Gap(ticks) => (2, ticks),
        };
        let text = figure.to_string();
        let mut octets = [0; 6];
        octets[..text.len()].copy_from_slice(text.as_bytes());
        boundary::Figure {
            kind,
            ticks,
            octets,
            length: text.len(),
        }
    }
}
