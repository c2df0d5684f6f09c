//! Rival tokens put in by hand, so that views differ, and then one token frame that all send or
//! hear.

use crate::frames::Frame;
use crate::model::frame::Header;
use crate::random::Random;
use crate::ring::seat::Seat;
use crate::ring::Ring;

/// The most blocks of a turn.
const MOST_BLOCKS: usize = 17;

/// Leaves views, watches and misses apart, then lets one station send a token frame that all others
/// hear. Gives its place and the frame.
pub fn disturb(ring: &mut Ring, random: &mut Random) -> (usize, Header) {
    let few = random.one_in(2);
    rival_frames(ring, if few { 2 } else { 2 * ring.seats.len() }, random);
    let views = rival_views(ring, few, random);
    turn_views(ring, &views, random);
    // Misses from before in one run of four, and at most two of them, so that nobody is struck yet.
    let rounds = if random.one_in(4) {
        1 + random.below(2)
    } else {
        0
    };
    for _ in 0..rounds {
        lone_ticks(ring, random);
        turn_views(ring, &views, random);
    }
    let sender = match random.one_in(2) {
        // The second largest passes to the largest, which leaves the other views as they are.
        true => ring.seats.len() - 2,
        false => random.below(ring.seats.len()),
    };
    (sender, common_frame(ring, sender, random))
}

/// Token frames that name any source and destination of the ring, each heard by some.
fn rival_frames(ring: &mut Ring, most: usize, random: &mut Random) {
    let numbers = ring.numbers();
    for _ in 0..random.below(most + 1) {
        let frame = Frame::token(random.pick(&numbers), random.pick(&numbers));
        let octets = frame.octets(random);
        for seat in &mut ring.seats {
            if random.one_in(2) {
                seat.hear(&octets);
            }
        }
    }
}

/// A view for each station, or for a few of them: any, or by a pattern (all hold, all name the next
/// one, and so on).
fn rival_views(ring: &Ring, few: bool, random: &mut Random) -> Vec<Option<u8>> {
    let numbers = ring.numbers();
    let stations = numbers.len();
    let (step, shift) = (random.below(stations), random.below(stations));
    let pattern = random.one_in(2);
    let mut view = |at: usize| match pattern {
        _ if few && !random.one_in(stations / 4 + 1) => None,
        true => Some(numbers[(at * step + shift) % stations]),
        false => Some(random.pick(&numbers)),
    };
    (0..stations).map(&mut view).collect()
}

fn turn_views(ring: &mut Ring, views: &[Option<u8>], random: &mut Random) {
    for (seat, view) in ring.seats.iter_mut().zip(views) {
        view.iter().for_each(|&view| point(seat, view, random));
    }
}

/// Turns one station's view to the number by a token frame that it alone hears.
fn point(seat: &mut Seat, view: u8, random: &mut Random) {
    if seat.holds() && view > seat.number() {
        // A holder's view only goes down by what it hears; so it passes first, and nobody hears it.
        pass(|| seat.ask());
    }
    // The frame of the station in view moves the view anywhere. A holder goes by the smaller
    // number, whoever sends.
    let source = match seat.holds() {
        true => seat.listed().next().expect("a list"),
        false => seat.station.core.view(),
    };
    seat.hear(&Frame::token(source, view).octets(random));
    assert_eq!(
        seat.station.core.view(),
        view,
        "station {} pointed elsewhere",
        seat.number()
    );
}

/// Some stations get ticks that the others do not, by which a watch ends at about half of them.
fn lone_ticks(ring: &mut Ring, random: &mut Random) {
    for seat in &mut ring.seats {
        if random.one_in(2) {
            let ticks = random.below(2 * seat.watch_ticks() as usize);
            (0..ticks).for_each(|_| seat.tick());
        }
    }
}

fn common_frame(ring: &mut Ring, sender: usize, random: &mut Random) -> Header {
    let number = ring.seats[sender].number();
    point(&mut ring.seats[sender], number, random);
    pass(|| ring.ask(sender))
}

/// Asks a holder until it passes the token.
pub fn pass(mut ask: impl FnMut() -> Option<Header>) -> Header {
    (0..MOST_BLOCKS)
        .filter_map(|_| ask())
        .find(Header::has_token)
        .expect("a holder passes within a turn")
}
