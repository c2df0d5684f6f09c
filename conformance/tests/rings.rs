//! Rings of proved stations held against demand 3 of paper 01: brought up with faults on the wire,
//! disturbed by rival tokens, and run to agreement.

mod tally;

use crate::given_seed;
use flnet_conformance::model::frame::Header;
use flnet_conformance::model::MEMORY;
use flnet_conformance::names::{WORD_CYCLIC, WORD_FRAME};
use flnet_conformance::random::Random;
use flnet_conformance::ring::course::{Course, Event};
use flnet_conformance::ring::disturb::{disturb, pass};
use flnet_conformance::ring::seat::Seat;
use flnet_conformance::ring::start::{bring_up, Plan};
use flnet_conformance::ring::stray::Requests;
use flnet_conformance::ring::Ring;
use tally::{Settled, Tally};

/// Names the run that failed: stations, the ring's seed, the run.
struct Run(usize, u64, u64);

impl Drop for Run {
    fn drop(&mut self) {
        if std::thread::panicking() {
            eprintln!(
                "{} stations, ring of seed {}, run {}",
                self.0, self.1, self.2
            );
        }
    }
}

fn seed() -> u64 {
    given_seed().unwrap_or(1479)
}

/// The more stations, the fewer faults for each hearing: a single lost request leaves two lists
/// apart.
fn plan(stations: usize, random: &mut Random) -> Plan {
    let fault_rate = (1_000_000 / (stations * stations)).min(50_000);
    let watch = 2 + random.below(4) as u8;
    Plan {
        fault_rate,
        ..Plan::without_faults(stations, watch)
    }
}

fn try_rings(stations: usize, rings: u64, runs: u64) {
    let mut tally = Tally::default();
    for ring in (0..rings).map(|ring| seed() + 1000 * ring) {
        let mut random = Random::new(ring);
        let (up, attempts) = bring_up(plan(stations, &mut random), &mut random);
        tally.add_ring(&up, attempts);
        for run in 0..runs {
            let _named = Run(stations, ring, run);
            try_run(up.clone(), &mut random, &mut tally);
        }
    }
    println!("{stations} stations, seed {}: {rings} rings", seed());
    tally.print(stations);
}

fn try_run(mut ring: Ring, random: &mut Random, tally: &mut Tally) {
    let mut course = Course::new(random.number());
    let (sender, written) = disturb(&mut ring, random);
    check_premises(&ring, sender, written);
    let settled = settle(&mut ring, &mut course);
    tally.add_settled(&settled);
    if !settled.struck {
        let passes = 3 * ring.seats.len();
        go_round(&mut ring, &mut course, passes, random, tally);
    }
}

/// The premises of demand 3, by the states and the answers to the latest calls.
fn check_premises(ring: &Ring, sender: usize, written: Header) {
    let numbers = ring.numbers();
    assert!(written.has_token() && written.source == numbers[sender]);
    for (at, seat) in ring.seats.iter().enumerate() {
        let word = if at == sender {
            WORD_FRAME
        } else {
            WORD_CYCLIC
        };
        assert_eq!(
            seat.answer.word,
            word,
            "station {} did not send or hear the token frame",
            seat.number()
        );
        assert_eq!(seat.station.core.own(), seat.own);
        assert_eq!(seat.own.watch, ring.seats[0].own.watch);
        assert!(
            ring.is_complete(at),
            "the list of station {}",
            seat.number()
        );
        assert!(
            numbers.contains(&seat.station.core.view()),
            "the view of station {}",
            seat.number()
        );
    }
}

/// Makes an event, and holds the views after it against those that paper 01 gives from the views
/// before.
fn make_event(ring: &mut Ring, course: &mut Course) -> Event {
    let numbers = ring.numbers();
    let before = ring.views();
    let event = course.event(ring);
    let next = |view| numbers.iter().copied().find(|&number| number > view);
    let expected = |view: u8| match event {
        Event::Pass(frame) if view == frame.source => frame.destination,
        Event::Pass(frame) => view.min(frame.destination),
        Event::Silence => next(view).unwrap_or(numbers[0]),
        Event::Other => view,
    };
    let after: Vec<u8> = before.iter().map(|&view| expected(view)).collect();
    assert_eq!(
        ring.views(),
        after,
        "the views after {event:?} from {before:?}"
    );
    event
}

/// Any events until all name one holder, or somebody is struck; both counts stay within the bounds
/// of demand 3.
fn settle(ring: &mut Ring, course: &mut Course) -> Settled {
    let stations = ring.seats.len();
    let mut settled = Settled::default();
    while !ring.agrees() && !settled.struck {
        settled.events += 1;
        match make_event(ring, course) {
            Event::Pass(_) => settled.passes += 1,
            // A list is covered up to the event that strikes, and without it.
            Event::Silence if !ring.are_complete() => settled.struck = true,
            Event::Silence => settled.silences += 1,
            Event::Other => {}
        }
        assert!(settled.passes <= stations.pow(3), "too many passes");
        assert!(
            settled.silences <= (stations - 1).pow(2),
            "too many silences"
        );
    }
    settled
}

/// From the first agreement on: one view after every event, and the token to each station once in
/// any n passes.
fn go_round(
    ring: &mut Ring,
    course: &mut Course,
    passes: usize,
    random: &mut Random,
    tally: &mut Tally,
) {
    let stations = ring.seats.len();
    let mut given = Vec::new();
    // A request in mid-turn drops what was gathered, and the memory would have to wait for the next
    // turn.
    course.requests = if course.wild {
        Requests::Any
    } else {
        Requests::None
    };
    while given.len() < passes {
        if !course.wild && random.one_in(4) {
            ring.seats[random.below(stations)].write_own(random);
        }
        let event = make_event(ring, course);
        tally.events += 1;
        assert!(event != Event::Silence, "a silence in a ring that agrees");
        assert!(ring.agrees(), "the views part again");
        check_figure(&ring.seats[random.below(stations)], tally);
        if let Event::Pass(frame) = event {
            given.push(frame.destination);
            check_figure(taker(ring, frame), tally);
        }
        if !course.wild && given.len() >= 2 * stations && random.one_in(16) {
            check_memories(ring, tally);
        }
    }
    assert!(
        ring.are_complete() && !ring.has_misses(),
        "missed in a ring that agrees"
    );
    check_fair(&ring.numbers(), &given);
}

fn taker(ring: &Ring, frame: Header) -> &Seat {
    let seat = ring
        .seats
        .iter()
        .find(|seat| seat.number() == frame.destination);
    seat.expect("a station of the ring")
}

/// Any n passes in a row name each station once.
fn check_fair(numbers: &[u8], given: &[u8]) {
    for row in given.windows(numbers.len()) {
        let mut sorted = row.to_vec();
        sorted.sort_unstable();
        assert_eq!(sorted, numbers, "a row of passes leaves a station out");
    }
}

fn check_figure(seat: &Seat, tally: &mut Tally) {
    let shown = seat.station.show();
    assert_eq!(
        shown,
        seat.measured.figure(),
        "station {} measured {:?}",
        seat.number(),
        seat.measured
    );
    seat.measured
        .shown()
        .into_iter()
        .for_each(|gap| tally.add_gap(gap));
}

/// Every octet of every common memory: in another's areas what it copied at the start of its latest
/// finished turn, in a station's own what its host wrote, elsewhere nothing.
fn check_memories(ring: &Ring, tally: &mut Tally) {
    let mut sent = vec![0; MEMORY];
    for seat in &ring.seats {
        seat.areas().put(&seat.finished, &mut sent);
    }
    for seat in &ring.seats {
        let mut expected = sent.clone();
        seat.areas().put(&seat.written, &mut expected);
        let wrong = (0..MEMORY).find(|&octet| seat.memory[octet] != expected[octet]);
        assert_eq!(
            wrong,
            None,
            "an octet in the memory of station {}",
            seat.number()
        );
        tally.memories += 1;
    }
}

#[test]
fn rings_of_2() {
    try_rings(2, 40, 60);
}

#[test]
fn rings_of_3() {
    try_rings(3, 40, 100);
}

#[test]
fn rings_of_6() {
    try_rings(6, 40, 120);
}

#[test]
fn rings_of_17() {
    try_rings(17, 8, 12);
}

#[test]
fn rings_of_254() {
    try_rings(254, 2, 8);
}

/// A station that struck all others is a ring of one: it passes to itself, and each pass is a
/// taking.
#[test]
fn a_station_alone() {
    let mut random = Random::new(seed());
    let (mut ring, _) = bring_up(Plan::without_faults(2, 3), &mut random);
    ring.seats.truncate(1);
    let seat = &mut ring.seats[0];
    let mut watches = 0..10 * seat.watch_ticks();
    let alone = watches.any(|_| {
        seat.tick();
        seat.holds() && seat.listed().next().is_none()
    });
    assert!(alone, "the other is not struck");
    let written = pass(|| ring.ask(0));
    check_premises(&ring, 0, written);
    let mut course = Course::new(random.number());
    let settled = settle(&mut ring, &mut course);
    assert_eq!((settled.passes, settled.silences), (0, 0));
    let mut tally = Tally::default();
    course.wild = true;
    go_round(&mut ring, &mut course, 1000, &mut random, &mut tally);
    println!(
        "1 station: {} figures equal to the measured gap",
        tally.figures
    );
}

/// Two rounds in which the ticks between the passes add up to the cycle; gives what the panels show
/// then.
fn rounds_of(ring: &mut Ring, cycle: usize) -> Vec<String> {
    let stations = ring.seats.len();
    for _ in 0..2 * stations {
        let at = ring.holders()[0];
        let ticks = cycle / stations + (at < cycle % stations) as usize;
        (0..ticks).for_each(|_| ring.tick());
        pass(|| ring.ask(at));
    }
    ring.seats
        .iter()
        .for_each(|seat| check_figure(seat, &mut Tally::default()));
    ring.seats.iter().map(text).collect()
}

fn text(seat: &Seat) -> String {
    seat.station.show().text().into()
}

/// Cycles about the last that the panel can show, in a ring whose watch is long enough for them.
#[test]
fn a_slow_ring() {
    let mut random = Random::new(seed());
    let (mut ring, _) = bring_up(Plan::without_faults(34, 255), &mut random);
    for (cycle, shown) in [
        (63, "6.3"),
        (65_535, "6553.5"),
        (65_536, "OVER"),
        (5, "0.5"),
    ] {
        let texts = rounds_of(&mut ring, cycle);
        assert!(
            texts.iter().all(|text| text == shown),
            "cycle {cycle}: {texts:?}"
        );
        println!("34 stations, cycle of {cycle} ticks: all show {shown}");
    }
}
