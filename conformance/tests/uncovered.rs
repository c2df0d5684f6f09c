//! Rings that the printed lines do not cover, which end as the rules say (docs/PROMISES.md, "What
//! the printed lines do not cover").

use flnet_conformance::boundary::{Areas, Part, Settings};
use flnet_conformance::frames::Frame;
use flnet_conformance::names::{PARTICIPATING, WORD_REFUSED};
use flnet_conformance::random::Random;
use flnet_conformance::ring::Ring;

const STRANGER: u8 = 9;
/// Longer than listening and ring startup, or joining, takes.
const UP_TICKS: u64 = 60_000;
/// Many turns of the token, and many watches.
const LONG_TICKS: u64 = 20_000;

/// Stations of these numbers, four words of area 1 each, with watches of 5 milliseconds.
fn stations(numbers: &[u8]) -> Ring {
    timed(numbers, |_| 5)
}

/// The same with a time for each.
fn timed(numbers: &[u8], time: impl Fn(u8) -> u8) -> Ring {
    let own = |(at, &number): (usize, &u8)| Settings {
        number,
        areas: Areas {
            one: Part {
                address: 4 * at as u16,
                size: 4,
            },
            two: Part {
                address: 0,
                size: 0,
            },
        },
        watch: time(number),
    };
    let settings: Vec<Settings> = numbers.iter().enumerate().map(own).collect();
    Ring::new(&settings, 1479)
}

/// One tick; then the first station that has a frame due sends it. It is lost at the station that
/// is deaf to the sender.
fn step(ring: &mut Ring, deaf: impl Fn(&Ring, usize) -> Option<usize>) -> Option<usize> {
    ring.tick();
    (0..ring.seats.len()).find(|&at| {
        let lost = deaf(ring, at);
        ring.seats[at].may_send() && ring.ask_past(at, lost).is_some()
    })
}

fn run(ring: &mut Ring, ticks: u64) {
    for _ in 0..ticks {
        step(ring, |_, _| None);
    }
}

fn lists(ring: &Ring, at: usize, number: u8) -> bool {
    ring.seats[at].listed().any(|listed| listed == number)
}

#[test]
fn one_that_strikes_another_ends_alone() {
    let mut ring = stations(&[1, 2, 3, 4]);
    ring.seats.iter_mut().for_each(|seat| seat.start());
    run(&mut ring, UP_TICKS);
    assert!(ring.are_complete() && ring.agrees());

    // Three frames of station 3 are lost at station 4, which is next after it.
    let mut lost = 0;
    while lost < 3 {
        let sender = step(&mut ring, |_, from| (from == 2).then_some(3));
        lost += usize::from(sender == Some(2));
    }

    // From then on every frame reaches everybody. Station 4 strikes station 3, refuses what comes
    // from it and tokens that go to it, and goes on missing and striking.
    let mut refused = 0;
    for _ in 0..LONG_TICKS {
        let sender = step(&mut ring, |_, _| None);
        if sender == Some(2) && !lists(&ring, 3, 3) {
            let answer = ring.seats[3].answer;
            assert_eq!((answer.word, answer.refusal), (WORD_REFUSED, STRANGER));
            refused += 1;
        }
    }
    assert!(refused > 0);

    // It ends alone in its list, passes the token to itself, and the others follow it.
    for _ in 0..LONG_TICKS {
        step(&mut ring, |_, _| None);
        assert_eq!(ring.seats[3].listed().count(), 0);
        assert_eq!(ring.views(), [4, 4, 4, 4]);
    }
}

#[test]
fn of_two_that_join_together_the_later_never_lists_the_earlier() {
    let mut ring = stations(&[1, 2, 3, 4]);
    ring.seats[0].start();
    ring.seats[3].start();
    run(&mut ring, UP_TICKS);
    assert!(lists(&ring, 0, 4) && lists(&ring, 3, 1) && ring.seats[0].participates());

    // Stations 2 and 3 count the same three rounds; the wait for 3 ends 40 ticks after that for 2.
    ring.seats[1].start();
    ring.seats[2].start();
    let mut both = false;
    for _ in 0..UP_TICKS {
        step(&mut ring, |_, _| None);
        let phases = [1, 2].map(|at| ring.seats[at].station.core.phase());
        if !both && phases == [PARTICIPATING; 2] {
            both = true;
            assert!(lists(&ring, 1, 3) && lists(&ring, 0, 2) && lists(&ring, 0, 3));
        }
        assert!(!lists(&ring, 2, 2), "station 3 lists station 2");
    }
    assert!(both, "both participate");
}

/// A slow drive among quicker stations: it holds for longer than their own times, and nobody takes
/// the token from it.
#[test]
fn a_slow_drive_keeps_its_token() {
    let drive = 2;
    let mut ring = timed(&[1, 2, 3], |number| if number == 3 { 30 } else { 20 });
    ring.seats.iter_mut().for_each(|seat| seat.start());
    run(&mut ring, UP_TICKS);
    assert!(ring.are_complete());
    while ring.views() != [3, 3, 3] {
        step(&mut ring, |_, _| None);
    }
    for _ in 0..250 {
        ring.tick();
        assert_eq!(ring.views(), [3, 3, 3]);
    }
    assert!(ring.ask(drive).is_some());
    assert_eq!(ring.views(), [1, 1, 1]);
}

/// A request with another time, heard by one station alone: it gives the holder up while the holder
/// still has its time.
#[test]
fn a_request_with_another_time_makes_two_holders() {
    let mut ring = stations(&[1, 2]);
    ring.seats.iter_mut().for_each(|seat| seat.start());
    run(&mut ring, UP_TICKS);
    assert!(ring.are_complete());
    while ring.views() != [2, 2] {
        step(&mut ring, |_, _| None);
    }
    let other = Frame {
        watch: 1,
        ..Frame::request(2, ring.seats[1].own.areas.into())
    };
    let octets = other.octets(&mut Random::new(1));
    ring.seats[0].hear(&octets);
    for _ in 0..10 {
        ring.tick();
    }
    assert_eq!(ring.views(), [1, 2]);
}
