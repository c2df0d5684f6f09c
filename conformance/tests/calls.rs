//! Random calls on the model and the proved station, compared after each one.
//!
//! The seeds are fixed, with one more from the clock. What is printed is how often each answer came
//! up. With a seed given it is tried alone.

use crate::given_seed;
use flnet_conformance::both::Both;
use flnet_conformance::boundary::Answer;
use flnet_conformance::call::{Call, ROOM};
use flnet_conformance::choices::due::until_next;
use flnet_conformance::choices::{Action, Choices};
use flnet_conformance::coverage::{Coverage, Step};
use flnet_conformance::frames::Frame;
use flnet_conformance::model::frame::Code;
use flnet_conformance::names::*;
use flnet_conformance::random::Random;
use std::time::{SystemTime, UNIX_EPOCH};

const STEPS: u64 = 350_000;
const FIXED_SEEDS: [u64; 2] = [1479, 65_012];

struct Driver<'a> {
    choices: Choices,
    both: Both,
    /// The last right frame that was heard.
    heard: Vec<u8>,
    coverage: &'a mut Coverage,
}

impl Driver<'_> {
    fn call(&mut self, call: &Call) -> Answer {
        let before = *self.both.state();
        let answer = self.both.call(call);
        self.coverage.count(&Step {
            before: &before,
            call,
            answer: &answer,
            after: self.both.state(),
        });
        answer
    }

    fn ticks(&mut self, count: u32) {
        for _ in 0..count {
            self.call(&Call::Tick);
        }
    }

    fn step(&mut self) {
        let (choices, state) = (&mut self.choices, self.both.state());
        let call = match choices.action(state) {
            Action::Ticks => {
                let count = choices.ticks(state);
                return self.ticks(count);
            }
            Action::Write => return self.write(),
            Action::Show => return self.show(),
            Action::LongGap => return self.long_gap(),
            Action::Start => Call::Start(choices.settings()),
            Action::Stop => Call::Stop,
            Action::Ask => choices.ask(),
            Action::Noise => {
                let octets = choices.noise();
                choices.hear(octets)
            }
            Action::Frame => {
                let octets = choices.frame(state).octets(&mut choices.random);
                self.heard.clone_from(&octets);
                choices.hear(octets)
            }
            Action::Again => {
                let octets = choices.again(state, &self.heard);
                choices.hear(octets)
            }
            Action::Spoiled => {
                let octets = choices.spoiled(state).octets(&mut choices.random);
                choices.hear(octets)
            }
        };
        self.call(&call);
    }

    /// The host writes to the buffers between calls.
    fn write(&mut self) {
        let mut octets = [0; 64];
        let random = &mut self.choices.random;
        random.fill(&mut octets);
        let (at, which) = (random.below(ROOM - 64), random.below(4));
        self.both.write(|lent| {
            let buffers = [
                &mut lent.memory,
                &mut lent.assembly,
                &mut lent.turn,
                &mut lent.output,
            ];
            buffers.into_iter().nth(which).unwrap()[at..at + 64].copy_from_slice(&octets);
        });
    }

    fn show(&mut self) {
        let figure = self.both.show();
        self.coverage
            .count_figure(self.both.state().core.phase(), &figure);
        self.both.renew_model();
    }

    /// Ticks without a taking until the gap is at the end of what the panel shows, then a taking.
    fn long_gap(&mut self) {
        let target = self.choices.random.pick(&[65_535, 65_536]);
        let mut ticked = self.both.state().core.running;
        while ticked < target && self.both.state().core.phase() == PARTICIPATING {
            let state = self.both.state();
            let until_watch = until_next(state);
            let count = (target - ticked).min(until_watch.max(2) - 1);
            self.ticks(count);
            ticked += count;
            self.keep_quiet();
        }
        self.take();
    }

    /// A block without the token, which restarts the watch.
    fn keep_quiet(&mut self) {
        let list = &self.both.state().list;
        let first = list.numbers().next();
        if let Some(source) = first {
            let areas = list.entry(source).areas;
            let frame = Frame::cyclic(Code::Cyclic, source, source, areas.into(), 1);
            let octets = frame.octets(&mut self.choices.random);
            self.call(&Call::hear(octets));
        }
    }

    /// A token to us from the station in view; a holder that is alone passes to itself.
    fn take(&mut self) {
        let state = self.both.state();
        let entry = state.list.entry(state.core.view());
        if entry.listed {
            let frame = Frame::cyclic(
                Code::Token,
                state.core.view(),
                state.core.own().number,
                entry.areas.into(),
                1,
            );
            let octets = frame.octets(&mut self.choices.random);
            self.call(&Call::hear(octets));
        } else if state.core.view() == state.core.own().number {
            while self.call(&Call::ask()).word == WORD_FRAME && self.both.state().core.block() > 0 {
            }
        }
        self.show();
    }
}

fn run(seed: u64, steps: u64, coverage: &mut Coverage) {
    println!("seed {seed}");
    let mut random = Random::new(seed);
    let mut driver = Driver {
        both: Both::new(seed, &mut random),
        choices: Choices::new(random),
        heard: Vec::new(),
        coverage,
    };
    for _ in 0..steps {
        driver.step();
    }
    println!("seed {seed}: {} calls", driver.both.calls());
}

#[test]
fn model_and_proved_station_agree() {
    let mut coverage = Coverage::new();
    if let Some(seed) = given_seed() {
        run(seed, STEPS, &mut coverage);
        return coverage.print();
    }
    for seed in FIXED_SEEDS {
        run(seed, STEPS, &mut coverage);
    }
    coverage.print();
    let wanting = coverage.wanting();
    assert!(wanting.is_empty(), "{wanting:#?}");
    let clock = SystemTime::now().duration_since(UNIX_EPOCH).unwrap();
    run(clock.as_nanos() as u64, STEPS / 2, &mut coverage);
}
