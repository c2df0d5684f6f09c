//! Rules of paper 01 about starting, joining, striking and refusing, each in a case of its own.

use crate::case::*;
use flnet_conformance::boundary::List;
use flnet_conformance::frames::Frame;
use flnet_conformance::model::frame::{at, Code};
use flnet_conformance::model::{Areas, Part};
use flnet_conformance::names::*;

#[test]
fn listening_and_trigger() {
    for (number, wait) in [(1, 30_040), (7, 30_280), (8, 30_000), (254, 30_240)] {
        let mut case = Case::new();
        case.both.start(settings(number, words(4), 20));
        case.both.ticks(wait - 1);
        assert_eq!(refused(case.both.ask()), 10);
        case.both.ticks(1);
        let mut trigger = [0; 64];
        trigger[..8].copy_from_slice(b"FACN\0\0\0\x40");
        trigger[11] = number;
        trigger[15] = 255;
        trigger[40..42].copy_from_slice(&[0xFD, 0xF4]);
        trigger[54] = 0x80;
        trigger[59] = 0x60;
        assert_eq!(case.sent(), trigger);
        // Our request falls due after the wait for our number.
        case.both.ticks(40 * u32::from(number) - 1);
        assert_eq!(refused(case.both.ask()), 10);
        case.both.ticks(1);
        let mut request = trigger;
        request[41] = 0xEA;
        request[47] = 4;
        request[61] = 20;
        assert_eq!(case.sent(), request);
        assert_eq!(refused(case.both.ask()), 10);
        // Nobody else: back to listening.
        case.both.ticks(12_000 - 40 * u32::from(number));
        assert_eq!(
            (
                case.both.state().core.phase(),
                case.both.state().core.elapsed
            ),
            (LISTENING, 0)
        );
    }
}

#[test]
fn joining_by_three_rounds() {
    let mut case = Case::new();
    case.both.start(settings(3, Areas::default(), 20));
    for _ in 0..2 {
        case.hear(Frame::token(1, 2));
        case.hear(Frame::token(2, 1));
    }
    case.hear(Frame::token(1, 2));
    case.both.ticks(1000);
    assert_eq!(refused(case.both.ask()), 10);
    assert_eq!(
        (
            case.both.state().core.phase(),
            case.both.state().core.rounds()
        ),
        (JOINING, 2)
    );
    case.hear(Frame::token(2, 1));
    // A station heard first after the third round is not learned, but its token's destination is
    // noted.
    case.hear(Frame::token(9, 4));
    case.both.ticks(119);
    assert_eq!(refused(case.both.ask()), 10);
    case.both.ticks(1);
    assert_eq!(word(&case.sent(), at::TCD), 65002);
    let state = case.both.state();
    assert_eq!((state.core.phase(), state.core.view()), (PARTICIPATING, 4));
    assert!(
        state.list.entry(1).listed && state.list.entry(2).listed && !state.list.entry(9).listed
    );
}

#[test]
fn joining_gives_up() {
    let mut case = Case::new();
    case.both.start(settings(3, Areas::default(), 20));
    case.hear(Frame::token(1, 2));
    case.both.ticks(29_999);
    case.hear(Frame::token(2, 1));
    case.both.ticks(29_999);
    assert_eq!(case.both.state().core.phase(), JOINING);
    case.both.ticks(1);
    assert_eq!(case.both.state().core.phase(), LISTENING);
    assert!(case.both.state().list == List::EMPTY);
}

#[test]
fn three_misses_in_a_row() {
    let mut case = participant(settings(9, Areas::default(), 1), &without_areas(&[3, 254]));
    // The views go 3, 9, 254 with each watch.
    for round in 1..=2 {
        case.both.ticks(30);
        assert_eq!(
            (case.view(), case.both.state().list.entry(3).misses),
            (3, round)
        );
    }
    // A frame clears the source's misses and restarts the watch, also if it is not from the station
    // in view.
    case.both.ticks(9);
    case.hear(Frame::cyclic(Code::Cyclic, 254, 1, Areas::default(), 1));
    assert_eq!((case.view(), case.both.state().core.elapsed), (3, 0));
    assert_eq!(case.both.state().list.entry(254).misses, 0);
    case.both.ticks(10);
    assert!(!case.both.state().list.entry(3).listed);
    assert_eq!(case.view(), 9);
    assert_eq!(refused(case.hear(Frame::token(3, 9))), 9);
    assert_eq!(refused(case.hear(Frame::token(254, 3))), 9);
}

#[test]
fn overlapping_areas() {
    let four = Areas::new(Part::new(0, 4), Part::new(0, 0));
    // Before our request falls due we give way.
    let mut case = Case::new();
    case.both.start(settings(5, four, 10));
    case.hear(Frame::trigger(2));
    case.hear(Frame::request(
        2,
        Areas::new(Part::new(3, 4), Part::new(0, 0)),
    ));
    case.both.ticks(199);
    assert_eq!(case.both.state().core.own().areas.one.size, 4);
    case.both.ticks(1);
    assert_eq!(
        case.both.state().core.own().areas,
        Areas::new(Part::new(0, 0), Part::new(0, 0)).into()
    );
    assert_eq!(case.both.state().list.entry(2).areas.one.size, 4);
    // After that the other does, keeping its addresses.
    let mut case = participant(settings(5, four, 10), &without_areas(&[2]));
    case.hear(Frame::request(
        7,
        Areas::new(Part::new(3, 4), Part::new(8, 9)),
    ));
    assert_eq!(
        case.both.state().list.entry(7).areas,
        Areas::new(Part::new(3, 0), Part::new(8, 0)).into()
    );
}

#[test]
fn refusals_in_their_order() {
    let mut case = participant(settings(1, Areas::default(), 10), &[(2, words(513))]);
    let right = Frame::cyclic(Code::Token, 2, 1, words(513), 1);
    type Spoil = fn(&mut Frame);
    let spoils: [(u8, Spoil); 10] = [
        (9, |frame| frame.source = 77),
        (8, |frame| frame.size = 1023),
        (15, |frame| frame.block = 3),
        (14, |frame| frame.blocks = 1),
        (7, |frame| frame.areas.one.address = 1),
        (6, |frame| frame.source = 1),
        (5, |frame| frame.destination = 255),
        (4, |frame| frame.code = 65_003),
        (3, |frame| frame.length = Some(1089)),
        (2, |frame| frame.mark = *b"FACM"),
    ];
    let mut frame = right.clone();
    for (number, spoil) in spoils {
        spoil(&mut frame);
        assert_eq!(refused(case.hear(frame.clone())), number);
    }
    frame.total = 1121;
    assert_eq!(refused(case.hear(frame)), 1);
    assert_eq!(case.hear(right).word, WORD_CYCLIC);
}

/// Which block field is off: TBN, CBN, or the length and the header part.
#[test]
fn block_fields() {
    let right = Frame::cyclic(Code::Token, 2, 1, words(513), 2);
    // CBN, TBN, BSIZE, octets in all, and the number.
    let cases = [
        // TBN, alone and with the others.
        (2, 3, 2, 66, 14),
        (2, 1, 2, 66, 14),
        (0, 0, 3, 99, 14),
        // CBN, alone and with the length and the header part.
        (0, 2, 2, 66, 15),
        (3, 2, 2, 66, 15),
        (255, 2, 3, 100, 15),
        // The length, and the header part.
        (2, 2, 1, 66, 8),
        (1, 2, 2, 66, 8),
        (2, 2, 2, 65, 8),
        (2, 2, 2, 99, 8),
    ];
    for (block, blocks, size, total, number) in cases {
        let frame = Frame {
            block,
            blocks,
            size,
            total,
            ..right.clone()
        };
        let mut case = participant(settings(1, Areas::default(), 10), &[(2, words(513))]);
        assert_eq!(refused(case.hear(frame.clone())), number);
        let unlisted = Frame {
            source: 77,
            ..frame.clone()
        };
        assert_eq!(refused(case.hear(unlisted)), number);
        // They look at cyclic frames only.
        for code in [Code::Request, Code::Trigger] {
            let other = Frame {
                code: code as u16,
                total: 64,
                ..frame.clone()
            };
            assert_eq!(case.hear(other).word, WORD_DONE);
        }
        // An off station looks too.
        assert_eq!(refused(Case::new().hear(frame)), number);
    }
}

#[test]
fn off_and_taken() {
    let mut case = Case::new();
    assert_eq!(case.both.ticks(1).word, WORD_OFF);
    assert_eq!(refused(case.both.stop()), 10);
    assert_eq!(case.hear(Frame::trigger(2)).word, WORD_OFF);
    for (number, watch) in [(0, 1), (255, 1), (1, 0)] {
        assert_eq!(
            refused(case.both.start(settings(number, Areas::default(), watch))),
            5
        );
    }
    case.both.start(settings(2, words(9), 1));
    assert_eq!(
        refused(case.both.start(settings(0, Areas::default(), 0))),
        10
    );
    // Our own number before we participate turns us off, which keeps the number alone.
    assert_eq!(refused(case.hear(Frame::trigger(2))), 6);
    assert_eq!(case.both.state().core.phase(), OFF);
    assert_eq!(
        case.both.state().core.own(),
        settings(2, Areas::default(), 0)
    );
    assert_eq!(case.hear(Frame::trigger(2)).word, WORD_OFF);
    let mut case = participant(settings(1, Areas::default(), 10), &without_areas(&[2]));
    assert_eq!(refused(case.hear(Frame::token(1, 2))), 6);
    assert_eq!(case.both.state().core.phase(), PARTICIPATING);
}
