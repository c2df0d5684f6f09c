//! How long the calls take: the proved station and the model side by side, with the same inputs.
//!
//! Both are called, in the same way, and the whole of each answer is used, as a host does. The
//! library's calls cannot become part of the measuring loop, so the model's are kept out of it too
//! (`Called`): else the compiler would spare the model alone the call, and those parts of an answer
//! that nobody looks at. Of a frame that was heard both tell; of one that was written only the proved
//! station does, whose times have that in them.

use flnet_conformance::boundary::{self, Answer, Figure, Station};
use flnet_conformance::engine::Engine;
use flnet_conformance::frames::Frame;
use flnet_conformance::model::frame::{at, Code};
use flnet_conformance::model::{waits, Areas, Model, Part, Settings, MEMORY, OUTPUT};
use flnet_conformance::names::{DROPPED, KEPT, REPEAT, WRITTEN};
use flnet_conformance::random::Random;
use std::hint::black_box;
use std::time::{Duration, Instant};

/// Measurements of each figure, of which the median counts.
const REPETITIONS: usize = 41;
/// A unit and its nanoseconds.
type Unit = (&'static str, f64);
const NANOSECOND: Unit = ("ns", 1.0);
const MICROSECOND: Unit = ("us", 1000.0);
/// Words of each station of a ring: 64 octets.
const RING_WORDS: u16 = 32;

/// The model's calls, made as C makes them.
mod calls {
    // A slice goes as a pointer and a length, here too.
    #![allow(improper_ctypes_definitions)]

    use flnet_conformance::boundary::{Answer, Settings};
    use flnet_conformance::engine::Engine;
    use flnet_conformance::model::Model;

    #[inline(never)]
    pub extern "C" fn start(model: &mut Model, own: Settings) -> Answer {
        Engine::start(model, own)
    }

    #[inline(never)]
    pub extern "C" fn stop(model: &mut Model) -> Answer {
        Engine::stop(model)
    }

    #[inline(never)]
    pub extern "C" fn tick(model: &mut Model) -> Answer {
        Engine::tick(model)
    }

    #[inline(never)]
    pub extern "C" fn hear(
        model: &mut Model,
        octets: &[u8],
        memory: &mut [u8],
        assembly: &mut [u8],
    ) -> Answer {
        Engine::hear(model, octets, memory, assembly)
    }

    #[inline(never)]
    pub extern "C" fn ask(
        model: &mut Model,
        memory: &[u8],
        turn: &mut [u8],
        output: &mut [u8],
    ) -> Answer {
        Engine::ask(model, memory, turn, output)
    }
}

/// The model behind calls like those of the library. It has none for many ticks: each is a call.
#[derive(Clone, Default)]
struct Called(Model);

impl Engine for Called {
    fn start(&mut self, own: boundary::Settings) -> Answer {
        calls::start(&mut self.0, own)
    }

    fn stop(&mut self) -> Answer {
        calls::stop(&mut self.0)
    }

    fn tick(&mut self) -> Answer {
        calls::tick(&mut self.0)
    }

    fn hear(&mut self, octets: &[u8], memory: &mut [u8], assembly: &mut [u8]) -> Answer {
        calls::hear(&mut self.0, octets, memory, assembly)
    }

    fn ask(&mut self, memory: &[u8], turn: &mut [u8], output: &mut [u8]) -> Answer {
        calls::ask(&mut self.0, memory, turn, output)
    }

    fn show(&self) -> Figure {
        Engine::show(&self.0)
    }
}

/// A station with the buffers that its host lends.
struct Host<E> {
    station: E,
    memory: Vec<u8>,
    assembly: Vec<u8>,
    turn: Vec<u8>,
    output: Vec<u8>,
}

impl<E: Engine + Default> Host<E> {
    fn started(own: Settings) -> Host<E> {
        let mut made = Host {
            station: E::default(),
            memory: vec![1; MEMORY],
            assembly: vec![2; MEMORY],
            turn: vec![3; MEMORY],
            output: vec![4; OUTPUT],
        };
        made.station.start(own.into());
        made
    }

    /// A participant by ring startup with these others; the first in view is the one with the
    /// smallest number.
    fn participant(own: Settings, others: &[Settings]) -> Host<E> {
        let mut made = Host::started(own);
        let mut random = Random::new(u64::from(own.number));
        let heard = others
            .iter()
            .map(|other| Frame::request(other.number, other.areas));
        let trigger = Frame::trigger(own.number % 254 + 1);
        for frame in std::iter::once(trigger).chain(heard) {
            made.hear(&frame.octets(&mut random));
        }
        (0..waits::ACCEPTANCE).for_each(|_| made.tick());
        made
    }

    // The state is hidden from the optimizer at each call, as it is where calls come one by one, and
    // so is what is done with the answer.
    fn start(&mut self, own: Settings) {
        black_box(black_box(&mut self.station).start(black_box(own).into()));
    }

    fn stop(&mut self) {
        black_box(black_box(&mut self.station).stop());
    }

    fn tick(&mut self) {
        black_box(black_box(&mut self.station).tick());
    }

    fn ticks(&mut self, count: u32) {
        black_box(black_box(&mut self.station).ticks(black_box(count)));
    }

    /// What became of the data.
    fn hear(&mut self, octets: &[u8]) -> u8 {
        let station = black_box(&mut self.station);
        black_box(station.hear(octets, &mut self.memory, &mut self.assembly)).data
    }

    /// The octets of the frame that stands at the front of the output.
    fn ask(&mut self) -> usize {
        let station = black_box(&mut self.station);
        black_box(station.ask(&self.memory, &mut self.turn, &mut self.output)).octets
    }
}

fn settings(number: u8, areas: Areas) -> Settings {
    Settings {
        number,
        areas,
        watch: 255,
    }
}

/// A station that has so many words of area 2, apart from those of other numbers.
fn share(number: u8, words: u16) -> Settings {
    let two = Part::new(words * u16::from(number - 1), words);
    settings(number, Areas::new(Part::default(), two))
}

fn octets(code: Code, from: &Settings, to: u8, block: u8) -> Vec<u8> {
    Frame::cyclic(code, from.number, to, from.areas, block).octets(&mut Random::new(1))
}

/// A measurement: the mean time of a call, in nanoseconds, over so many rounds of so many calls.
fn measurement(rounds: u32, calls: u32, mut round: impl FnMut()) -> impl FnMut() -> f64 {
    move || {
        let begin = Instant::now();
        (0..rounds).for_each(|_| round());
        begin.elapsed().as_nanos() as f64 / f64::from(rounds * calls)
    }
}

/// A participant that hears a block now and then, so that no watch ends.
fn tick<E: Engine + Default>() -> impl FnMut() -> f64 {
    let other = share(2, 512);
    let mut station = Host::<E>::participant(share(1, 512), &[other]);
    let block = octets(Code::Cyclic, &other, 1, 1);
    measurement(20, 2000, move || {
        (0..2000).for_each(|_| station.tick());
        station.hear(&block);
    })
}

/// A station that listens, and hears nothing.
fn tick_listening<E: Engine + Default>() -> impl FnMut() -> f64 {
    let mut station = Host::<E>::started(share(1, 512));
    measurement(20, 2000, move || (0..2000).for_each(|_| station.tick()))
}

/// The same, a thousand ticks at a time.
fn ticks_listening<E: Engine + Default>() -> impl FnMut() -> f64 {
    let mut station = Host::<E>::started(share(1, 512));
    measurement(200, 1, move || station.ticks(1000))
}

/// A station alone in its list, 3000 ticks at a time: more than its watch.
fn ticks_alone<E: Engine + Default>() -> impl FnMut() -> f64 {
    let mut station = alone::<E>();
    measurement(200, 1, move || station.ticks(3000))
}

/// How long it is quiet: the whole watch of a participant. The model ticks until it ends.
fn quiet() -> (impl FnMut() -> f64, impl FnMut() -> f64) {
    let watch = waits::watch(255);
    let station = Host::<Station>::participant(share(1, 512), &[share(2, 512)]).station;
    let model = Host::<Called>::participant(share(1, 512), &[share(2, 512)]).station;
    let proved = measurement(16_000, 1, move || {
        assert_eq!(black_box(black_box(&station).quiet()).ticks, watch - 1)
    });
    let stepped = measurement(200, 1, move || {
        black_box(black_box(&model).clone().ticks(watch));
    });
    (proved, stepped)
}

/// A start with number 0, at an off station.
fn start_refused<E: Engine + Default>() -> impl FnMut() -> f64 {
    let own = settings(0, Areas::default());
    let mut station = Host::<E>::started(own);
    measurement(16_000, 1, move || station.start(own))
}

/// A start and a stop, each of which empties the list.
fn start_stop<E: Engine + Default>() -> impl FnMut() -> f64 {
    let own = share(9, 512);
    let mut station = Host::<E>::started(own);
    measurement(4000, 2, move || {
        station.stop();
        station.start(own);
    })
}

/// From a stop to participating: a trigger and a request heard, then all ticks of ring startup in one
/// call, in which our request falls due and lapses.
fn ring_startup<E: Engine + Default>() -> impl FnMut() -> f64 {
    let own = share(9, 512);
    let mut station = Host::<E>::started(own);
    let mut random = Random::new(1);
    let trigger = Frame::trigger(2).octets(&mut random);
    let request = Frame::request(2, share(2, 512).areas).octets(&mut random);
    measurement(20, 1, move || {
        station.stop();
        station.start(own);
        station.hear(&trigger);
        station.hear(&request);
        station.ticks(waits::ACCEPTANCE);
    })
}

/// Hears these frames in turn, with the same outcome each time.
fn hear<E: Engine + Default>(
    mut station: Host<E>,
    frames: Vec<Vec<u8>>,
    data: u8,
) -> impl FnMut() -> f64 {
    let calls = frames.len() as u32;
    measurement(16_000 / calls, calls, move || {
        for frame in &frames {
            assert_eq!(station.hear(black_box(frame)), data);
        }
    })
}

/// The token of a turn of one block, there and back between two others.
fn hear_token<E: Engine + Default>() -> impl FnMut() -> f64 {
    let (one, other) = (share(2, 512), share(3, 512));
    let frames = vec![
        octets(Code::Token, &one, 3, 1),
        octets(Code::Token, &other, 2, 1),
    ];
    let station = Host::<E>::participant(share(9, 512), &[one, other]);
    hear(station, frames, WRITTEN)
}

/// A station that hears another one, with both areas, and the first so many blocks of that one's
/// turn of 17.
fn hearer<E: Engine + Default>(blocks: u8) -> (Host<E>, Vec<Vec<u8>>) {
    let other = settings(2, Areas::new(Part::new(0, 512), Part::new(0, 8192)));
    let own = settings(1, Areas::default());
    let frames = (1..=blocks)
        .map(|block| octets(Code::Cyclic, &other, 1, block))
        .collect();
    (Host::participant(own, &[other]), frames)
}

/// Blocks 1 to 16 of a turn of 17.
fn hear_block<E: Engine + Default>() -> impl FnMut() -> f64 {
    let (station, frames) = hearer::<E>(16);
    hear(station, frames, KEPT)
}

/// Block 2 of such a turn, once more each time.
fn hear_repeat<E: Engine + Default>() -> impl FnMut() -> f64 {
    let (mut station, mut frames) = hearer::<E>(2);
    for frame in &frames {
        station.hear(frame);
    }
    hear(station, frames.split_off(1), REPEAT)
}

/// A turn of 8 blocks, sent over and over: copying the areas at the first block is in it, hearing
/// the token come back is not.
fn ask_block<E: Engine + Default>() -> impl FnMut() -> f64 {
    const BLOCKS: u32 = 8;
    const TURNS: u32 = 2000;
    let other = settings(2, Areas::default());
    let mut station = Host::<E>::participant(share(1, 4096), &[other]);
    let back = octets(Code::Token, &other, 1, 1);
    move || {
        let mut spent = Duration::ZERO;
        for _ in 0..TURNS {
            let begin = Instant::now();
            (0..BLOCKS).for_each(|_| assert_eq!(station.ask(), OUTPUT));
            spent += begin.elapsed();
            station.hear(&back);
        }
        spent.as_nanos() as f64 / f64::from(TURNS * BLOCKS)
    }
}

/// A station alone in its list, after three misses of the other, and as many watches of its own
/// between them.
fn alone<E: Engine + Default>() -> Host<E> {
    let mut station = Host::<E>::participant(share(1, 4096), &[share(2, 4096)]);
    (0..6 * waits::watch(255)).for_each(|_| station.tick());
    station
}

/// The same for a station alone in its list, which looks for the next one at every number.
fn ask_alone<E: Engine + Default>() -> impl FnMut() -> f64 {
    let mut station = alone::<E>();
    measurement(16_000, 1, move || assert_eq!(station.ask(), OUTPUT))
}

/// A participant that does not hold, asked after every tick or frame as a host does.
fn ask_refused<E: Engine + Default>() -> impl FnMut() -> f64 {
    let mut station = Host::<E>::participant(share(9, 512), &[share(2, 512)]);
    measurement(16_000, 1, move || assert_eq!(station.ask(), 0))
}

/// A frame that brings no data, at a participant that lists station 2.
fn hear_plain<E: Engine + Default>(frame: Vec<u8>) -> impl FnMut() -> f64 {
    let mut station = Host::<E>::participant(share(9, 512), &[share(2, 512)]);
    measurement(16_000, 1, move || {
        assert_eq!(station.hear(black_box(&frame)), 0)
    })
}

/// Such frames: 1088 octets that are refused, then a trigger, and a request that is listed again.
fn plain_frames() -> Vec<(&'static str, Vec<u8>)> {
    let listed = octets(Code::Cyclic, &share(2, 512), 9, 1);
    let with = |place: usize, value: u8| {
        let mut changed = listed.clone();
        changed[place] = value;
        changed
    };
    let random = &mut Random::new(1);
    vec![
        ("hear a frame with another mark", with(at::H_TYPE, 0)),
        ("hear a frame with our number (6)", with(at::SNA, 9)),
        ("hear an area out of its range (7)", with(at::C_AD2, 255)),
        ("hear block 0 (15)", with(at::CBN, 0)),
        ("hear a block of a station not listed", with(at::SNA, 3)),
        ("hear a trigger", Frame::trigger(2).octets(random)),
        (
            "hear a request",
            Frame::request(2, share(2, 512).areas).octets(random),
        ),
    ]
}

/// A station in its first round of joining, which learns from each block.
fn hear_joining<E: Engine + Default>() -> impl FnMut() -> f64 {
    let other = share(2, 512);
    let mut station = Host::<E>::started(share(9, 512));
    station.hear(&octets(Code::Token, &other, 3, 1));
    hear(station, vec![octets(Code::Cyclic, &other, 3, 1)], DROPPED)
}

/// Ten ticks, the last of which ends the watch: by turns the other's, who gets a miss, and ours. A
/// block heard after the second miss, which clears them, is not in it.
fn tick_watch<E: Engine + Default>() -> impl FnMut() -> f64 {
    const ROUNDS: u32 = 2000;
    const WATCHES: u32 = 4;
    let other = share(2, 512);
    let own = Settings {
        watch: 1,
        ..share(9, 512)
    };
    let mut station = Host::<E>::participant(own, &[other]);
    let block = octets(Code::Cyclic, &other, 9, 1);
    move || {
        let mut spent = Duration::ZERO;
        for _ in 0..ROUNDS {
            station.hear(&block);
            let begin = Instant::now();
            (0..WATCHES * waits::watch(1)).for_each(|_| station.tick());
            spent += begin.elapsed();
        }
        spent.as_nanos() as f64 / f64::from(ROUNDS * WATCHES)
    }
}

fn ring_of<E: Engine + Default>(stations: u8) -> Vec<Host<E>> {
    let all: Vec<Settings> = (1..=stations)
        .map(|number| share(number, RING_WORDS))
        .collect();
    let others_of = |own: &Settings| -> Vec<Settings> {
        all.iter().copied().filter(|other| other != own).collect()
    };
    all.iter()
        .map(|own| Host::participant(*own, &others_of(own)))
        .collect()
}

/// One turn of the ring: each station in its turn is asked for its token frame, which all others
/// hear.
fn ring<E: Engine + Default>(stations: u8) -> impl FnMut() -> f64 {
    let mut ring = ring_of::<E>(stations);
    let mut frame = [0; OUTPUT];
    let turns = 10 + 20_000 / u32::from(stations).pow(2);
    measurement(turns, 1, move || {
        for holder in 0..ring.len() {
            let octets = ring[holder].ask();
            frame[..octets].copy_from_slice(&ring[holder].output[..octets]);
            let others = ring.iter_mut().enumerate().filter(|(at, _)| *at != holder);
            for (_, other) in others {
                assert_eq!(other.hear(black_box(&frame[..octets])), WRITTEN);
            }
        }
    })
}

fn median(mut times: Vec<f64>) -> f64 {
    times.sort_by(f64::total_cmp);
    times[times.len() / 2]
}

/// Measures both by turns, so that whatever else the machine does falls on both; the ratio is the
/// median of those of two neighbouring measurements. The first ones only warm up.
fn line(
    what: &str,
    (unit, nanoseconds): Unit,
    mut proved: impl FnMut() -> f64,
    mut model: impl FnMut() -> f64,
) {
    (proved(), model());
    let times: Vec<(f64, f64)> = (0..REPETITIONS).map(|_| (proved(), model())).collect();
    let ratio = median(times.iter().map(|(proved, model)| proved / model).collect());
    let (proved, model): (Vec<f64>, Vec<f64>) = times.into_iter().unzip();
    let (proved, model) = (median(proved) / nanoseconds, median(model) / nanoseconds);
    println!("{what:<42} {unit:>4} {proved:>10.1} {model:>10.1} {ratio:>7.1}");
}

fn main() {
    println!(
        "{:<42} unit {:>10} {:>10} {:>7}",
        "call", "proved", "model", "ratio"
    );
    line("tick", NANOSECOND, tick::<Station>(), tick::<Called>());
    line(
        "tick of a station that listens",
        NANOSECOND,
        tick_listening::<Station>(),
        tick_listening::<Called>(),
    );
    line(
        "1000 ticks of a station that listens",
        NANOSECOND,
        ticks_listening::<Station>(),
        ticks_listening::<Called>(),
    );
    line(
        "3000 ticks, alone in the list",
        NANOSECOND,
        ticks_alone::<Station>(),
        ticks_alone::<Called>(),
    );
    let (proved, stepped) = quiet();
    line("how long it is quiet", NANOSECOND, proved, stepped);
    line(
        "ask with nothing due",
        NANOSECOND,
        ask_refused::<Station>(),
        ask_refused::<Called>(),
    );
    line(
        "ten ticks, the last ends the watch",
        NANOSECOND,
        tick_watch::<Station>(),
        tick_watch::<Called>(),
    );
    line(
        "start refused (5)",
        NANOSECOND,
        start_refused::<Station>(),
        start_refused::<Called>(),
    );
    line(
        "start or stop",
        NANOSECOND,
        start_stop::<Station>(),
        start_stop::<Called>(),
    );
    line(
        "ring startup, its ticks in one call",
        NANOSECOND,
        ring_startup::<Station>(),
        ring_startup::<Called>(),
    );
    for (what, frame) in plain_frames() {
        line(
            what,
            NANOSECOND,
            hear_plain::<Station>(frame.clone()),
            hear_plain::<Called>(frame),
        );
    }
    line(
        "hear a block in joining",
        NANOSECOND,
        hear_joining::<Station>(),
        hear_joining::<Called>(),
    );
    line(
        "hear a token frame, 1024 octets written",
        NANOSECOND,
        hear_token::<Station>(),
        hear_token::<Called>(),
    );
    line(
        "hear a block, 1024 octets kept",
        NANOSECOND,
        hear_block::<Station>(),
        hear_block::<Called>(),
    );
    line(
        "hear a block once more, 1024 octets",
        NANOSECOND,
        hear_repeat::<Station>(),
        hear_repeat::<Called>(),
    );
    line(
        "ask for a block, 1024 octets",
        NANOSECOND,
        ask_block::<Station>(),
        ask_block::<Called>(),
    );
    line(
        "ask for a block, alone in the list",
        NANOSECOND,
        ask_alone::<Station>(),
        ask_alone::<Called>(),
    );
    for stations in [6, 64, 254] {
        line(
            &format!("one turn of a ring of {stations}, 64 octets each"),
            MICROSECOND,
            ring::<Station>(stations),
            ring::<Called>(stations),
        );
    }
}
