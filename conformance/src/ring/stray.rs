//! Strays: calls at one station alone that paper 01 lets into a list of demand 3.

use crate::boundary::Settings;
use crate::frames::Frame;
use crate::model::frame::HEADER;
use crate::model::{Areas, Part, OUTPUT};
use crate::names::{WORD_DONE, WORD_REFUSED};
use crate::random::Random;
use crate::ring::measured::Step;
use crate::ring::seat::Seat;
use crate::ring::Ring;

/// What stray requests of the ring's stations carry.
#[derive(Clone, Copy, Debug, PartialEq, Eq)]
pub enum Requests {
    None,
    /// The areas and the watch time that the station has.
    True,
    /// Any areas; another watch time would end what is covered.
    Any,
}

pub fn stray(ring: &mut Ring, at: usize, requests: Requests, random: &mut Random) {
    let numbers = ring.numbers();
    let sender = ring.seats[random.below(numbers.len())].own;
    let seat = &mut ring.seats[at];
    match random.below(6) {
        0 => seat.start(),
        1 => call_with_wrong_buffers(seat, random),
        2 if !seat.holds() => assert!(
            seat.ask().is_none(),
            "a frame from a station that does not hold"
        ),
        3 => seat.hear(&Frame::trigger(sender.number).octets(random)),
        4 if requests != Requests::None => {
            seat.hear(&request(&sender, requests, random).octets(random))
        }
        _ => seat.hear(&refusable(&numbers, seat.number(), random).octets(random)),
    }
    let word = seat.answer.word;
    assert!(
        word == WORD_REFUSED || word == WORD_DONE,
        "no stray: answered {:?}",
        seat.answer
    );
}

fn request(sender: &Settings, requests: Requests, random: &mut Random) -> Frame {
    if requests == Requests::True {
        return Frame {
            watch: sender.watch,
            ..Frame::request(sender.number, sender.areas.into())
        };
    }
    let mut part = |words: usize| {
        let address = random.below(words + 1);
        Part::new(address as u16, random.below(words + 2 - address) as u16)
    };
    let areas = Areas::new(part(512), part(8192));
    Frame {
        watch: sender.watch,
        ..Frame::request(sender.number, areas)
    }
}

/// A frame that any participant hears, and any asking, with a buffer of a wrong length.
fn call_with_wrong_buffers(seat: &mut Seat, random: &mut Random) {
    let before = seat.station.core;
    let octets = Frame::token(before.view(), seat.number()).octets(random);
    let short = random.below(seat.memory.len());
    let mut long = vec![0; seat.memory.len() + 1];
    let Seat {
        station,
        memory,
        assembly,
        turn,
        output,
        ..
    } = seat;
    let answer = match random.below(5) {
        0 => station.hear(&octets, &mut memory[..short], assembly),
        1 => station.hear(&octets, memory, &mut long),
        2 => station.ask(&long, turn, output),
        3 => station.ask(memory, &mut turn[..short], output),
        _ => station.ask(memory, turn, &mut output[..short % OUTPUT]),
    };
    seat.note(before, answer, Step::Other);
}

/// A token frame with one thing wrong in it.
fn refusable(numbers: &[u8], own: u8, random: &mut Random) -> Frame {
    let outside = (1..=254).find(|number| !numbers.contains(number));
    let mut frame = Frame::token(random.pick(numbers), random.pick(numbers));
    let change = 1 + random.below(255) as u8;
    match random.below(11) {
        0 => frame.total = random.below(HEADER),
        1 => frame.mark[random.below(4)] ^= change,
        2 => frame.length = Some(HEADER as u32 ^ u32::from(change) << (8 * random.below(4))),
        3 => frame.code ^= u16::from(change) << 8,
        4 => frame.source = random.pick(&[0, 255]),
        5 => frame.source = own,
        6 => frame.areas.one = Part::new(511, 2),
        7 => frame.blocks = random.pick(&[0, 2]),
        8 => frame.block = random.pick(&[0, 2]),
        9 => frame.size = u16::from(change),
        _ => frame.source = outside.unwrap_or(own),
    }
    frame
}
