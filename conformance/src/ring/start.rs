//! Bringing a ring up: its settings, switching on in any order, and putting right what faults on
//! the wire left wrong.

use crate::boundary::{Areas, Part, Settings};
use crate::random::Random;
use crate::ring::Ring;

/// Listening and ring startup take up to 42,280 ticks, and then whoever missed the trigger joins.
const START_TICKS: u64 = 60_000;
/// Joining takes three rounds and up to 10,160 ticks.
const JOIN_TICKS: u64 = 16_000;
/// Whoever is switched on within these ticks is there before the first trigger can come.
const EARLY_TICKS: usize = 28_000;
const MOST_ATTEMPTS: u32 = 100;

/// What kind of ring is brought up.
#[derive(Clone, Copy, Debug)]
pub struct Plan {
    pub stations: usize,
    pub watch: u8,
    /// Of a million hearings, how many are lost in the first attempt; as many again are repeated,
    /// and as many late.
    pub fault_rate: usize,
}

impl Plan {
    pub fn without_faults(stations: usize, watch: u8) -> Plan {
        Plan {
            stations,
            watch,
            fault_rate: 0,
        }
    }
}

/// When a station is switched on, by its place.
type Switch = (u64, usize);

/// A ring in which all participate, list one another, name one holder and count no misses, and the
/// attempts that it took.
pub fn bring_up(plan: Plan, random: &mut Random) -> (Ring, u32) {
    let mut ring = Ring::new(&settings(plan, random), random.number());
    for seat in &mut ring.seats {
        seat.write_own(random);
    }
    let mut switches = any_order(plan.stations, random);
    let mut rate = plan.fault_rate;
    for attempt in 1..=MOST_ATTEMPTS {
        ring.fault_rate = rate;
        if comes_up(&mut ring, &switches, random) && settles_down(&mut ring, random) {
            return (ring, attempt);
        }
        rate /= 2;
        switches = switch_off(&mut ring, random);
    }
    panic!(
        "{} stations not up after {MOST_ATTEMPTS} attempts",
        plan.stations
    );
}

/// Different numbers, ascending; areas apart, of which the first three drawn take several blocks;
/// one watch time.
fn settings(plan: Plan, random: &mut Random) -> Vec<Settings> {
    let mut numbers: Vec<u8> = (1..=254).collect();
    random.shuffle(&mut numbers);
    let small = 4096 / plan.stations + 2;
    let ones = (0..plan.stations)
        .map(|_| random.below(1024 / plan.stations + 1))
        .collect();
    let twos = (0..plan.stations)
        .map(|place| wish(place, small, random))
        .collect();
    let parts = apart(512, ones).into_iter().zip(apart(8192, twos));
    let areas = parts.map(|(one, two)| Areas { one, two });
    let mut all: Vec<Settings> = numbers
        .into_iter()
        .zip(areas)
        .map(|(number, areas)| Settings {
            number,
            areas,
            watch: plan.watch,
        })
        .collect();
    all.sort_by_key(|own| own.number);
    all
}

fn wish(place: usize, small: usize, random: &mut Random) -> usize {
    match place {
        0..=2 => 513 + random.below(1500),
        _ if random.one_in(8) => 0,
        _ => random.below(small),
    }
}

/// Parts of an area one behind the other, each of the wished size as far as there is room.
fn apart(words: usize, wishes: Vec<usize>) -> Vec<Part> {
    let mut address = 0;
    let mut place = |wish: usize| {
        let size = wish.min(words - address);
        let part = Part {
            address: address as u16,
            size: size as u16,
        };
        address += size;
        part
    };
    wishes.into_iter().map(&mut place).collect()
}

/// Most are switched on before a trigger can come, about two into the running ring.
fn any_order(stations: usize, random: &mut Random) -> Vec<Switch> {
    let mut when = || match random.one_in(stations / 2 + 1) {
        true => 44_000 + random.below(10_000),
        false => random.below(EARLY_TICKS),
    };
    (0..stations).map(|at| (when() as u64, at)).collect()
}

/// Runs until all participate and list one another. False if time runs out, or all participate with
/// other lists.
fn comes_up(ring: &mut Ring, switches: &[Switch], random: &mut Random) -> bool {
    let last = switches
        .iter()
        .map(|switch| switch.0)
        .max()
        .unwrap_or(ring.now);
    let patience = if switches.len() == 1 {
        JOIN_TICKS
    } else {
        START_TICKS
    };
    while ring.now < last + patience {
        for &(_, at) in switches.iter().filter(|switch| switch.0 == ring.now) {
            ring.seats[at].start();
        }
        tick_and_ask(ring, random);
        if ring.now > last
            && ring.now.is_multiple_of(256)
            && ring.seats.iter().all(|seat| seat.participates())
        {
            return ring.are_complete();
        }
    }
    false
}

/// Runs without faults until all name one holder and nobody has a miss.
fn settles_down(ring: &mut Ring, random: &mut Random) -> bool {
    ring.calm();
    (0..JOIN_TICKS).any(|_| {
        tick_and_ask(ring, random);
        ring.agrees() && ring.are_complete() && !ring.has_misses()
    })
}

/// A tick at all; then hosts ask in turn, leaving out an asking now and then, until the wire has
/// one frame. Askings that the state shows to be in vain are left out too, which saves half the
/// time.
fn tick_and_ask(ring: &mut Ring, random: &mut Random) {
    ring.tick();
    let stations = ring.seats.len();
    let first = random.below(stations);
    let mut hosts = (0..stations).map(|step| (first + step) % stations);
    hosts.find(|&at| ring.seats[at].may_send() && !random.one_in(8) && ring.ask(at).is_some());
}

/// Switches a station off whose list is wrong, or all of them where many are, and says when they
/// are switched on again.
fn switch_off(ring: &mut Ring, random: &mut Random) -> Vec<Switch> {
    let stations = ring.seats.len();
    let wrong: Vec<usize> = (0..stations).filter(|&at| !ring.is_complete(at)).collect();
    let few = (1..=6).contains(&wrong.len()) && !random.one_in(4);
    let (again, within) = match few {
        true => (vec![random.pick(&wrong)], 2_000),
        false => ((0..stations).collect(), EARLY_TICKS),
    };
    for &at in &again {
        ring.seats[at].stop();
    }
    let now = ring.now;
    again
        .into_iter()
        .map(|at| (now + random.below(within) as u64, at))
        .collect()
}
