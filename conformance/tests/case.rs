//! A station in a plain case of paper 01, as the proved station and the model at once.

use flnet_conformance::both::Both;
use flnet_conformance::boundary::{Answer, Settings};
use flnet_conformance::frames::Frame;
use flnet_conformance::model::{waits, Areas, Part};
use flnet_conformance::names::*;
use flnet_conformance::random::Random;

/// Both stations, and the noise for the frames that they hear.
pub struct Case {
    pub both: Both,
    pub random: Random,
}

impl Case {
    pub fn new() -> Case {
        let mut random = Random::new(1);
        let both = Both::new(1, &mut random);
        Case { both, random }
    }

    pub fn hear(&mut self, frame: Frame) -> Answer {
        let octets = frame.octets(&mut self.random);
        self.both.hear(octets)
    }

    /// The frame that is due.
    pub fn sent(&mut self) -> Vec<u8> {
        let answer = self.both.ask();
        assert_eq!(answer.word, WORD_FRAME, "{answer:?}");
        self.both.lent().output[..answer.octets].to_vec()
    }

    pub fn view(&self) -> u8 {
        self.both.state().core.view()
    }

    pub fn panel(&self) -> String {
        self.both.show().text().into()
    }
}

/// Area 1 from its start, the rest in area 2.
pub fn words(count: u16) -> Areas {
    Areas::new(
        Part::new(0, count.min(512)),
        Part::new(0, count.saturating_sub(512)),
    )
}

pub fn settings(number: u8, areas: Areas, watch: u8) -> Settings {
    Settings {
        number,
        areas: areas.into(),
        watch,
    }
}

/// A station that came to participate by ring startup with these others, all of one watch time.
pub fn participant(own: Settings, others: &[(u8, Areas)]) -> Case {
    let mut case = Case::new();
    assert_eq!(case.both.start(own).word, WORD_DONE);
    case.hear(Frame::trigger(others[0].0));
    for &(number, areas) in others {
        let request = Frame {
            watch: own.watch,
            ..Frame::request(number, areas)
        };
        assert_eq!(case.hear(request).word, WORD_DONE);
    }
    case.both.ticks(waits::ACCEPTANCE);
    assert_eq!(case.both.state().core.phase(), PARTICIPATING);
    case
}

pub fn without_areas(numbers: &[u8]) -> Vec<(u8, Areas)> {
    numbers
        .iter()
        .map(|&number| (number, Areas::default()))
        .collect()
}

pub fn refused(answer: Answer) -> u8 {
    assert_eq!(answer.word, WORD_REFUSED);
    answer.refusal
}

pub fn word(octets: &[u8], at: usize) -> u16 {
    u16::from_be_bytes([octets[at], octets[at + 1]])
}
