//! Many ticks in one call, and how many of them are quiet: beside ticks one by one, at the proved
//! station and at the model.

use crate::any_state::any_station;
use crate::case::{settings, words};
use flnet_conformance::both::{differences, Both};
use flnet_conformance::boundary::{Answer, Core, Quiet, Station};
use flnet_conformance::call::Call;
use flnet_conformance::choices::due::{is_due, watch};
use flnet_conformance::choices::{Action, Choices};
use flnet_conformance::frames::Frame;
use flnet_conformance::model::{waits, Model, MEMORY, OUTPUT};
use flnet_conformance::names::*;
use flnet_conformance::random::Random;

/// Longer than every wait.
const LONG: u32 = 31_000;
/// How often each kind of state has to come up at least.
const SEEN: u32 = 5;

/// The answer to the last of so many ticks; to none, what one would be answered.
fn ticks_one_by_one(station: &mut Station, count: u32) -> Answer {
    let mut answer = { *station }.tick();
    for _ in 0..count {
        answer = station.tick();
    }
    answer
}

fn check_ticks(station: &Station, count: u32) {
    let (mut many, mut one_by_one) = (*station, *station);
    let answer = many.ticks(count);
    let expected = ticks_one_by_one(&mut one_by_one, count);
    let wrong = differences(&one_by_one, &many);
    assert!(
        answer == expected && wrong.is_empty(),
        "{count} ticks of {:?}: {answer:?}\n{wrong}",
        station.core
    );
}

fn check_model(station: &Station, count: u32) {
    let (mut many, mut model) = (*station, Model::from(station));
    many.ticks(count);
    (0..count).for_each(|_| {
        model.tick();
    });
    let wrong = differences(&Station::from(&model), &many);
    assert!(
        wrong.is_empty(),
        "{count} ticks of {:?}\n{wrong}",
        station.core
    );
}

/// The model's ticks before the first that brings news, if one does among so many.
fn model_quiet(station: &Station, most: u32) -> Option<u32> {
    let mut model = Model::from(station);
    let mut before = Core::from(&model);
    (0..most).find(|_| {
        model.tick();
        let after = Core::from(&model);
        let news = after.phase() != before.phase()
            || after.view() != before.view()
            || is_due(&after) && !is_due(&before);
        before = after;
        news
    })
}

fn check_quiet(station: &Station) {
    let quiet = station.quiet();
    let stepped = model_quiet(station, LONG);
    let expected = Quiet {
        ends: stepped.is_some(),
        ticks: stepped.unwrap_or(0),
    };
    assert!(
        quiet == expected,
        "{:?}: {quiet:?}, the model {expected:?}",
        station.core
    );
}

/// States that random calls lead to.
fn for_states(seed: u64, calls: u32, mut check: impl FnMut(&mut Random, &Station)) {
    let mut random = Random::new(seed);
    let mut both = Both::new(seed, &mut random);
    let mut choices = Choices::new(random);
    for _ in 0..calls {
        let state = *both.state();
        match choices.action(&state) {
            Action::Ticks => {
                both.ticks(choices.ticks(&state));
            }
            Action::Start => {
                both.start(choices.settings());
            }
            Action::Stop => {
                both.stop();
            }
            Action::Ask => {
                both.call(&choices.ask());
            }
            _ => {
                let octets = choices.frame(&state).octets(&mut choices.random);
                both.call(&Call::hear(octets));
            }
        }
        // Most calls find a participant.
        let often = match both.state().core.phase() {
            PARTICIPATING => 2,
            _ => 40,
        };
        if choices.random.chance(often) {
            check(&mut choices.random, both.state());
        }
    }
}

/// Counts around the next end, around the watch, and others.
fn count_for(random: &mut Random, station: &Station) -> u32 {
    let next = station.quiet().ticks;
    let watch = watch(station);
    let some = random.below(5000) as u32;
    random.pick(&[
        0,
        1,
        2,
        next,
        next + 1,
        next + 2,
        watch,
        6 * watch + 1,
        some,
    ])
}

#[test]
fn many_ticks_are_the_ticks_one_by_one() {
    let mut phases = [0u32; 5];
    for_states(14, 40_000, |random, station| {
        phases[usize::from(station.core.phase())] += 1;
        let count = count_for(random, station);
        check_ticks(station, count);
        check_model(station, count);
    });
    assert!(phases.iter().all(|&count| count > SEEN), "{phases:?}");
}

#[test]
fn quiet_ticks_are_those_of_the_model() {
    let (mut ending, mut endless) = ([0u32; 5], [0u32; 5]);
    for_states(41, 40_000, |_, station| {
        check_quiet(station);
        let phase = usize::from(station.core.phase());
        match station.quiet().ends {
            true => ending[phase] += 1,
            false => endless[phase] += 1,
        }
    });
    let seen = ending[1..].iter().all(|&count| count > SEEN);
    let stays = [OFF, PARTICIPATING];
    let seen = seen
        && stays
            .iter()
            .all(|&phase| endless[usize::from(phase)] > SEEN);
    assert!(seen, "ending {ending:?}, endless {endless:?}");
}

/// Whether a frame is due, at any state.
fn has_frame(station: &Station, lent: &mut [Vec<u8>; 3]) -> bool {
    let [memory, turn, output] = lent;
    { *station }.ask(memory, turn, output).word == WORD_FRAME
}

/// Also at states that no calls lead to.
#[test]
fn many_ticks_and_quiet_ones_at_any_state() {
    let mut random = Random::new(255);
    let mut lent = [vec![0; MEMORY], vec![0; MEMORY], vec![0; OUTPUT]];
    for _ in 0..6_000 {
        let station = any_station(&mut random);
        let count = random.pick(&[0, 1, 2, 3, 40, 500]);
        check_ticks(&station, count);
        let mut is_news = |count: u32| {
            let mut before = station;
            before.ticks(count);
            let mut after = before;
            after.tick();
            after.core.phase() != before.core.phase()
                || after.core.view() != before.core.view()
                || has_frame(&after, &mut lent) && !has_frame(&before, &mut lent)
        };
        let quiet = station.quiet();
        let end = if quiet.ends { quiet.ticks } else { 100_000 };
        let quiet_counts = [
            0,
            end / 2,
            end.saturating_sub(1),
            random.below(1 + end as usize) as u32,
        ];
        let wrong = quiet_counts
            .into_iter()
            .find(|&count| count < end && is_news(count));
        assert!(
            wrong.is_none(),
            "{:?}: {quiet:?}, news after {wrong:?}",
            station.core
        );
        assert!(!quiet.ends || is_news(end), "{:?}: {quiet:?}", station.core);
    }
}

/// A station with areas of its own that listens.
fn listening(number: u8, watch: u8) -> Station {
    let mut station = Station::new();
    station.start(settings(number, words(4), watch));
    station
}

/// One that holds and is alone: its ring startup ends with another, which it then strikes.
fn alone() -> Station {
    let mut both = Both::new(1, &mut Random::new(1));
    both.start(settings(3, words(4), 2));
    let mut random = Random::new(2);
    let request = Frame {
        watch: 2,
        ..Frame::request(9, Default::default())
    };
    for frame in [Frame::trigger(9), request] {
        both.hear(frame.octets(&mut random));
    }
    both.ticks(waits::ACCEPTANCE + 10 * waits::watch(2));
    *both.state()
}

#[test]
fn the_longest_sleep() {
    let mut off = Station::new();
    assert_eq!(off.ticks(u32::MAX).word, WORD_OFF);
    assert_eq!(off, Station::new());
    assert_eq!(off.quiet(), Quiet::default());

    let mut station = listening(7, 20);
    assert_eq!(station.ticks(u32::MAX).word, WORD_DONE);
    assert_eq!(station.core.elapsed, waits::until_trigger(7));
    assert_eq!(station.quiet(), Quiet::default());

    let mut lonely = alone();
    assert!(lonely.core.phase() == PARTICIPATING && lonely.core.view() == 3);
    assert_eq!(lonely.quiet(), Quiet::default());
    let mut shorter = lonely;
    lonely.ticks(u32::MAX);
    // As far round the watch, and longer than the panel counts.
    let round = waits::watch(2);
    ticks_one_by_one(&mut shorter, u32::MAX % round + 10_000 * round);
    assert_eq!(lonely, shorter);
}

#[test]
fn the_tick_before_an_end_and_at_it() {
    let mut station = listening(7, 20);
    let quiet = station.quiet();
    let ticks = waits::until_trigger(7) - 1;
    assert_eq!(quiet, Quiet { ends: true, ticks });
    station.ticks(quiet.ticks);
    assert!(!is_due(&station.core));
    assert_eq!(
        station.quiet(),
        Quiet {
            ends: true,
            ticks: 0
        }
    );
    station.ticks(1);
    assert!(is_due(&station.core));
    assert_eq!(station.ticks(0).word, WORD_DONE);
}
