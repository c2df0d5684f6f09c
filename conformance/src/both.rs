//! The model and the proved station side by side: each call goes to both, and all that can be seen
//! of them is compared.

use crate::boundary::{Answer, Core, Figure, Route, Settings, Station};
use crate::call::{perform, Buffers, Call};
use crate::model::frame::Header;
use crate::model::Model;
use crate::names;
use crate::random::Random;
use std::fmt::Write;

pub struct Both {
    seed: u64,
    calls: u64,
    model: Model,
    proved: Station,
    model_lent: Buffers,
    proved_lent: Buffers,
    /// What both showed after the last call, as far as it counts.
    state: Station,
}

/// What an answer tells of the frame that was heard or written, by reading it once more.
fn route(call: &Call, answer: &Answer, lent: &Buffers) -> Route {
    let octets = match call {
        Call::Hear { octets, .. } => octets,
        Call::Ask { .. } => &lent.output[..answer.octets],
        _ => &[][..],
    };
    Header::of(octets).map_or_else(Route::default, Route::from)
}

impl Both {
    /// Two stations that were never started, with the same noise in their buffers, and the proved
    /// one's core with noise wherever it does not count.
    pub fn new(seed: u64, random: &mut Random) -> Both {
        let lent = Buffers::new(random);
        let model = Model::new();
        let state = Station::from(&model);
        let mut proved = Station::new();
        assert!(state == proved, "a station that was never started");
        proved.core = Core::drawn(|| random.number() as u32).kept(&state.core);
        Both {
            seed,
            calls: 0,
            model,
            proved,
            model_lent: lent.clone(),
            proved_lent: lent,
            state,
        }
    }

    pub fn state(&self) -> &Station {
        &self.state
    }

    pub fn calls(&self) -> u64 {
        self.calls
    }

    pub fn lent(&self) -> &Buffers {
        &self.model_lent
    }

    /// The host writes to a buffer of both.
    pub fn write(&mut self, change: impl Fn(&mut Buffers)) {
        change(&mut self.model_lent);
        change(&mut self.proved_lent);
    }

    pub fn call(&mut self, call: &Call) -> Answer {
        self.calls += 1;
        let mut expected = perform(&mut self.model, call, &mut self.model_lent);
        expected.frame = route(call, &expected, &self.model_lent);
        let before = self.proved.core;
        let given = perform(&mut self.proved, call, &mut self.proved_lent);
        let state = Station::from(&self.model);
        let core = before.kept(&state.core);
        let same_state = core == self.proved.core && state.list == self.proved.list;
        let same_lent = !call.lends() || self.model_lent == self.proved_lent;
        if expected != given || !same_state || !same_lent {
            let left = Station { core, ..state };
            panic!("{}", self.report(call, &expected, &given, &left));
        }
        self.state = state;
        given
    }

    pub fn start(&mut self, own: Settings) -> Answer {
        self.call(&Call::Start(own))
    }

    pub fn stop(&mut self) -> Answer {
        self.call(&Call::Stop)
    }

    /// The answer to the last of so many ticks.
    pub fn ticks(&mut self, count: u32) -> Answer {
        let mut answer = Answer::default();
        for _ in 0..count {
            answer = self.call(&Call::Tick);
        }
        answer
    }

    pub fn hear(&mut self, octets: Vec<u8>) -> Answer {
        self.call(&Call::hear(octets))
    }

    pub fn ask(&mut self) -> Answer {
        self.call(&Call::ask())
    }

    pub fn show(&self) -> Figure {
        let (expected, given) = (Figure::from(self.model.show()), self.proved.show());
        assert!(
            expected == given,
            "seed {}, after call {}: the model shows {expected:?}, the proved station {given:?}",
            self.seed,
            self.calls
        );
        given
    }

    /// The model made anew from what is shown goes on like the one before it.
    pub fn renew_model(&mut self) {
        self.model = Model::from(&self.state);
    }

    fn report(&self, call: &Call, expected: &Answer, given: &Answer, left: &Station) -> String {
        let mut text = format!(
            "seed {}, call {}: {}\n",
            self.seed,
            self.calls,
            call.describe()
        );
        let shown = fields(&self.state)
            .into_iter()
            .filter(|(_, value)| !is_nothing(value));
        for (name, value) in shown {
            writeln!(text, "  before: {name} {value}").unwrap();
        }
        writeln!(text, "  model: {}", names::answer(expected)).unwrap();
        writeln!(text, "  proved: {}", names::answer(given)).unwrap();
        text += &differences(left, &self.proved);
        for ((name, model), (_, proved)) in
            self.model_lent.named().iter().zip(self.proved_lent.named())
        {
            if let Some(at) = (0..model.len()).find(|&at| model[at] != proved[at]) {
                writeln!(
                    text,
                    "  differs: {name} from octet {at}: model {}, proved {}",
                    model[at], proved[at]
                )
                .unwrap();
            }
        }
        text
    }
}

/// The fields in which the proved state differs from the one that it should be, a line each.
pub fn differences(expected: &Station, proved: &Station) -> String {
    if expected == proved {
        return String::new();
    }
    let pairs = fields(expected).into_iter().zip(fields(proved));
    pairs
        .filter(|(expected, proved)| expected != proved)
        .map(|((name, expected), (_, proved))| {
            format!("  differs: {name}: expected {expected}, proved {proved}\n")
        })
        .collect()
}

fn is_nothing(value: &str) -> bool {
    value == "0 (0x0)" || value.starts_with("Entry { listed: false")
}

/// Every field of a state by name.
fn fields(station: &Station) -> Vec<(String, String)> {
    let phase = names::phase(station.core.phase());
    let mut fields = vec![("phase by name".into(), phase.into())];
    for (name, value) in station.core.named() {
        fields.push((name.into(), format!("{value} ({value:#x})")));
    }
    for number in 0..=255 {
        let entry = station.list.entry(number);
        fields.push((format!("list at {number}"), format!("{entry:?}")));
    }
    fields
}
