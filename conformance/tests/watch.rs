//! How long the watch runs (paper 02, E1): for the listed time of the station in view, our own time
//! when we hold or it is not listed; a listed time of 0 counts as 1 ms.

use crate::case::{settings, Case};
use flnet_conformance::frames::Frame;
use flnet_conformance::model::{waits, Areas};
use flnet_conformance::names::*;

fn request(source: u8, time: u8) -> Frame {
    Frame {
        watch: time,
        ..Frame::request(source, Areas::default())
    }
}

/// Station 5 with its own time, participating with stations 2 and 9 of these times, and 2 in view.
fn with_2_in_view(own: u8, time: u8) -> Case {
    let mut case = Case::new();
    case.both.start(settings(5, Areas::default(), own));
    case.hear(Frame::trigger(2));
    case.hear(request(2, time));
    case.hear(request(9, 7));
    case.both.ticks(waits::ACCEPTANCE);
    assert_eq!(case.view(), 2);
    case
}

/// The watch ends in just this tick, and the view becomes the next one.
fn ends_in(case: &mut Case, ticks: u32, next: u8) {
    let view = case.view();
    case.both.ticks(ticks - 1);
    assert_eq!(case.view(), view, "after {} ticks", ticks - 1);
    case.both.ticks(1);
    assert_eq!(case.view(), next, "after {ticks} ticks");
}

#[test]
fn the_listed_time_of_the_station_in_view() {
    for (own, time, ticks) in [(2, 3, 30), (3, 1, 10), (255, 0, 10), (255, 255, 2550)] {
        ends_in(&mut with_2_in_view(own, time), ticks, 5);
    }
}

#[test]
fn our_own_time_when_we_hold() {
    let mut case = with_2_in_view(3, 1);
    case.hear(Frame::token(2, 5));
    assert_eq!(case.view(), 5);
    ends_in(&mut case, 30, 9);
}

/// One that joins takes the last token destination for its view, whether it is listed or not.
#[test]
fn our_own_time_when_it_is_not_listed() {
    let mut case = Case::new();
    case.both.start(settings(5, Areas::default(), 3));
    for _ in 0..3 {
        case.hear(Frame::token(2, 2));
    }
    case.hear(Frame::token(2, 77));
    case.both.ticks(waits::until_request(5));
    case.sent();
    assert_eq!(case.both.state().core.phase(), PARTICIPATING);
    assert_eq!(case.view(), 77);
    ends_in(&mut case, 30, 2);
}

/// As the list stands at each tick: a request restarts nothing.
#[test]
fn a_request_of_the_station_in_view_moves_the_end() {
    let mut shorter = with_2_in_view(9, 3);
    shorter.both.ticks(25);
    shorter.hear(request(2, 1));
    ends_in(&mut shorter, 1, 5);

    let mut longer = with_2_in_view(9, 2);
    longer.both.ticks(15);
    longer.hear(request(2, 5));
    ends_in(&mut longer, 35, 5);

    let mut another = with_2_in_view(9, 2);
    another.both.ticks(15);
    another.hear(request(9, 1));
    ends_in(&mut another, 5, 5);
}
