//! The marked cases of paper 01 and its worked examples.

use crate::case::*;
use flnet_conformance::frames::Frame;
use flnet_conformance::model::frame::{at, Code};
use flnet_conformance::model::{waits, Areas, Part};
use flnet_conformance::names::*;

#[test]
fn views() {
    let cases = [
        (5, 5, 9, 9, "passed on"),
        (5, 7, 9, 5, "rival passed over"),
        (9, 2, 5, 5, "rival won"),
        (254, 254, 1, 1, "passed on"),
        (5, 2, 5, 5, "rival passed over"),
    ];
    for (view, source, destination, after, token) in cases {
        let mut case = participant(
            settings(100, Areas::default(), 10),
            &without_areas(&[1, 2, 5, 7, 9, 254]),
        );
        case.hear(Frame::token(1, view));
        assert_eq!(case.view(), view);
        let answer = case.hear(Frame::token(source, destination));
        assert_eq!(
            (case.view(), TOKENS[usize::from(answer.token)]),
            (after, token)
        );
    }
}

#[test]
fn our_blocks() {
    let cases = [(0, 1, 0), (512, 1, 1024), (513, 2, 2), (8704, 17, 1024)];
    for (count, blocks, last) in cases {
        let mut case = participant(settings(1, words(count), 10), &without_areas(&[2]));
        let memory = case.both.lent().memory.clone();
        let mut data = Vec::new();
        for block in 1..=blocks {
            let size = if block == blocks { last } else { 1024 };
            let frame = case.sent();
            let code = if block == blocks { 65000 } else { 65001 };
            assert_eq!(word(&frame, at::TCD), code);
            assert_eq!(
                (frame[at::CBN], frame[at::TBN], word(&frame, at::BSIZE)),
                (block, blocks, size)
            );
            assert_eq!(frame[at::DNA], 2);
            data.extend_from_slice(&frame[64..]);
            // The turn is sent from a copy, whatever is written in the meantime.
            case.both.write(|lent| lent.memory[..17_408].fill(block));
        }
        assert!(data == memory[..2 * usize::from(count)]);
        assert_eq!(case.view(), 2);
    }
}

#[test]
fn blocks_heard() {
    for (count, blocks) in [(0, 1), (512, 1), (513, 2), (8704, 17)] {
        let theirs = words(count);
        let mut case = participant(settings(1, Areas::default(), 10), &[(2, theirs)]);
        let before = case.both.lent().memory.clone();
        let mut turn = Vec::new();
        for block in 1..=blocks {
            let frame = Frame::cyclic(Code::Cyclic, 2, 1, theirs, block);
            let octets = frame.octets(&mut case.random);
            turn.extend_from_slice(&octets[64..]);
            let answer = case.both.hear(octets);
            assert_eq!(answer.data, if block == blocks { WRITTEN } else { KEPT });
            // No reader sees half a turn.
            assert!(block == blocks || case.both.lent().memory == before);
        }
        assert!(case.both.lent().memory[..turn.len()] == turn);
        assert!(case.both.lent().memory[turn.len()..] == before[turn.len()..]);
    }
}

#[test]
fn a_block_out_of_turn() {
    let (two, three) = (
        Areas::new(Part::new(0, 0), Part::new(0, 1024)),
        Areas::new(Part::new(0, 0), Part::new(1024, 1024)),
    );
    let mut case = participant(settings(1, Areas::default(), 10), &[(2, two), (3, three)]);
    let mut hear = |source, areas, block| {
        case.hear(Frame::cyclic(Code::Cyclic, source, 1, areas, block))
            .data
    };
    assert_eq!(hear(2, two, 2), DROPPED);
    assert_eq!(hear(2, two, 1), KEPT);
    // Block 1 of another starts afresh, and the rest of the first turn is lost.
    assert_eq!(hear(3, three, 1), KEPT);
    assert_eq!(hear(2, two, 2), DROPPED);
    assert_eq!(hear(3, three, 2), DROPPED);
    assert_eq!(hear(3, three, 1), KEPT);
    assert_eq!(hear(3, three, 2), WRITTEN);
    // Areas that are not the listed ones.
    assert_eq!(hear(3, two, 1), DROPPED);
}

#[test]
fn area_ranges() {
    let cases = [
        (Part::new(511, 1), Part::new(0, 0), None),
        (Part::new(511, 2), Part::new(0, 0), Some(7)),
        (Part::new(512, 0), Part::new(0, 0), None),
        (Part::new(513, 0), Part::new(0, 0), Some(7)),
        (Part::new(0, 0), Part::new(8191, 1), None),
        (Part::new(0, 0), Part::new(8191, 2), Some(7)),
        (Part::new(0, 0), Part::new(8192, 0), None),
        (Part::new(65_535, 65_535), Part::new(0, 0), Some(7)),
    ];
    for (one, two, number) in cases {
        let mut case = Case::new();
        let answer = case.both.start(settings(1, Areas::new(one, two), 10));
        assert_eq!(answer.word == WORD_REFUSED, number.is_some());
        assert_eq!(answer.refusal, number.unwrap_or(0));
        let mut case = participant(settings(1, Areas::default(), 10), &without_areas(&[2]));
        let answer = case.hear(Frame::request(3, Areas::new(one, two)));
        assert_eq!(answer.refusal, number.unwrap_or(0));
    }
}

#[test]
fn next_after_the_largest() {
    let mut case = participant(settings(9, Areas::default(), 10), &without_areas(&[3, 254]));
    case.hear(Frame::token(3, 254));
    case.both.ticks(waits::watch(10));
    assert_eq!(case.view(), 3);
    let mut case = participant(settings(254, Areas::default(), 10), &without_areas(&[3, 9]));
    case.hear(Frame::token(3, 254));
    assert_eq!(case.sent()[at::DNA], 3);
    assert_eq!(case.view(), 3);
}

/// So many ticks from one taking to the next, blocks of station 2 keeping the watch from its end.
fn panel_after(ticks: u32) -> String {
    let mut case = participant(settings(1, Areas::default(), 255), &without_areas(&[2]));
    assert_eq!(case.panel(), "--");
    case.sent();
    let mut left = ticks;
    while left > 0 {
        let count = left.min(2000);
        case.both.ticks(count);
        left -= count;
        case.hear(Frame::cyclic(Code::Cyclic, 2, 1, Areas::default(), 1));
    }
    assert_eq!(case.panel(), "--");
    assert_eq!(case.hear(Frame::token(2, 1)).token, 2);
    case.panel()
}

#[test]
fn panel() {
    assert_eq!(panel_after(63), "6.3");
    assert_eq!(panel_after(5), "0.5");
    assert_eq!(panel_after(0), "0.0");
    assert_eq!(panel_after(65_535), "6553.5");
    assert_eq!(panel_after(65_536), "OVER");
    assert_eq!(panel_after(70_000), "OVER");
}
