//! Calls at any value of the state, also one that no calls lead to: each is answered, in the same
//! way with and without what stands above the low parts of the core's numbers, and leaves that as
//! it is.

use flnet_conformance::both::differences;
use flnet_conformance::boundary::{Answer, Areas, Core, Entry, List, Part, Station};
use flnet_conformance::call::{perform, Buffers, Call};
use flnet_conformance::choices::Choices;
use flnet_conformance::names::*;
use flnet_conformance::random::Random;

/// A value of its range's ends or any other.
fn any(random: &mut Random, ends: &[u32]) -> u32 {
    match random.chance(70) {
        true => random.pick(ends),
        false => random.number() as u32,
    }
}

fn any_octet(random: &mut Random, ends: &[u32]) -> u8 {
    any(random, ends) as u8
}

fn any_areas(random: &mut Random) -> Areas {
    let mut part = |words: u32| Part {
        address: any(random, &[0, 1, words / 2, words]) as u16,
        size: any(random, &[0, 1, words / 2, words]) as u16,
    };
    Areas {
        one: part(512),
        two: part(8192),
    }
}

fn any_entry(random: &mut Random, listed_percent: usize) -> Entry {
    Entry {
        listed: random.chance(listed_percent),
        areas: any_areas(random),
        watch: random.octet(),
        misses: any_octet(random, &[0, 1, 2, 3, 255]),
    }
}

/// Above the low parts: nothing, all ones, or anything.
fn any_above(random: &mut Random) -> Core {
    let above = random.pick(&[Some(0), Some(u32::MAX), None, None]);
    Core::drawn(|| above.unwrap_or(random.number() as u32))
}

fn any_core(random: &mut Random) -> Core {
    let number = any(random, &[0, 1, 2, 254, 255]) & 255;
    let Areas { one, two } = any_areas(random);
    let times = [
        0,
        1,
        39,
        40,
        2549,
        2550,
        11_999,
        12_000,
        29_999,
        30_000,
        65_535,
        65_536,
        u32::MAX,
    ];
    let low = Core {
        phase: any(random, &[0, 1, 2, 3, 4, 4, 4, 4, 5]),
        number,
        address_one: one.address.into(),
        size_one: one.size.into(),
        address_two: two.address.into(),
        size_two: two.size.into(),
        watch: any(random, &[0, 1, 255]),
        elapsed: any(random, &times),
        waited: any(random, &times),
        rounds: any(random, &[0, 2, 3, 255]),
        sent: random.number() as u32,
        view: any(random, &[number, number, 0, 1, 254, 255]),
        block: any(random, &[0, 0, 0, 1, 16, 17, 255]),
        source: any(random, &[0, 1, 2, 255]),
        blocks: any(random, &[0, 1, 16, 17, 255]),
        takings: any(random, &[0, 1, 2, 3, 255]),
        running: any(random, &times),
        gap: any(random, &times),
    };
    low.below(&any_above(random))
}

fn any_list(random: &mut Random) -> List {
    let listed_percent = random.pick(&[0, 2, 50, 100]);
    let mut list = List::EMPTY;
    for number in 0..=255 {
        list.set(number, any_entry(random, listed_percent));
    }
    list
}

/// Any value of the state, also one that no calls lead to.
pub fn any_station(random: &mut Random) -> Station {
    Station {
        core: any_core(random),
        list: any_list(random),
    }
}

fn any_call(choices: &mut Choices, station: &Station) -> Call {
    match choices.random.below(10) {
        0 => Call::Start(choices.settings()),
        1 => Call::Stop,
        2 | 3 => Call::Tick,
        4..=6 => choices.ask(),
        drawn => {
            let frame = match drawn {
                7 => choices.spoiled(station),
                _ => choices.frame(station),
            };
            let octets = frame.octets(&mut choices.random);
            choices.hear(octets)
        }
    }
}

/// The state as it counts.
fn counted(station: &Station) -> Station {
    Station {
        core: station.core.counted(),
        list: station.list,
    }
}

/// The state that a call leaves by what it leaves of the state as it counts.
fn kept(before: &Station, left: &Station) -> Station {
    Station {
        core: before.core.kept(&left.core),
        list: left.list,
    }
}

/// A refused call leaves the state, each number and all of it, but that 6 turns off a station that
/// does not participate.
fn check_refused(before: &Station, after: &Station, answer: &Answer) -> String {
    let keeps = answer.refusal != 6 || before.core.phase() == PARTICIPATING;
    match answer.word == WORD_REFUSED && keeps {
        true => differences(before, after),
        false => String::new(),
    }
}

/// The same call at a state and at the state as it counts: the same answer, the same buffers, and
/// the same state, but that in the first what does not count stays.
#[test]
fn any_state_is_answered_and_always_the_same() {
    let mut random = Random::new(6553);
    let mut once = Buffers::new(&mut random);
    let mut again = once.clone();
    let mut choices = Choices::new(random);
    for round in 0..60_000 {
        let station = any_station(&mut choices.random);
        let call = any_call(&mut choices, &station);
        let (mut first, mut second) = (station, counted(&station));
        let before = once.clone();
        let answer = perform(&mut first, &call, &mut once);
        let repeated = perform(&mut second, &call, &mut again);
        let mut wrong = differences(&kept(&station, &second), &first);
        wrong += &differences(&counted(&second), &second);
        wrong += &check_refused(&station, &first, &answer);
        let what = || format!("round {round}, {}: {answer:?}\n{wrong}", call.describe());
        assert!(answer == repeated && wrong.is_empty(), "{}", what());
        let same_shown = first.show() == second.show() && first.quiet() == second.quiet();
        assert!(once == again && same_shown, "{}", what());
        let lent = before.named().into_iter().zip(once.named()).skip(1);
        let untouched = lent.into_iter().all(|(before, after)| before == after);
        assert!(untouched || answer.word != WORD_REFUSED, "{}", what());
    }
}

/// A station made anew of any state is one of zeros, also above what counts, and its list is empty.
#[test]
fn any_state_is_made_anew() {
    let mut random = Random::new(1479);
    for _ in 0..1_000 {
        let mut station = any_station(&mut random);
        station.renew();
        let zeros = Station {
            core: Core::default(),
            list: List::EMPTY,
        };
        let wrong = differences(&zeros, &station);
        assert!(wrong.is_empty(), "{wrong}");
    }
}
