//! A block heard twice (paper 02, E4): the last block still gathered, with the octets that the
//! assembly buffer has in its place, is passed over.

use crate::case::{participant, settings, words, Case};
use flnet_conformance::boundary::Answer;
use flnet_conformance::frames::Frame;
use flnet_conformance::model::frame::Code;
use flnet_conformance::model::{Areas, Part};
use flnet_conformance::names::*;

/// Three blocks: 1024, 1024 and 152 octets, of which area 1 has the first.
const TURN: u16 = 1100;
const LAST: usize = 2 * TURN as usize - 2048;

/// The areas of station 9, which sends two blocks.
fn of_9() -> Areas {
    Areas::new(Part::new(0, 0), Part::new(4000, 600))
}

/// Station 5, without areas, participating with stations 2, that sends three blocks, and 9.
fn with_2_and_9() -> Case {
    participant(
        settings(5, Areas::default(), 2),
        &[(2, words(TURN)), (9, of_9())],
    )
}

/// The octets of station 2's block, its data noise.
fn block(case: &mut Case, number: u8) -> Vec<u8> {
    Frame::cyclic(Code::Cyclic, 2, 9, words(TURN), number).octets(&mut case.random)
}

fn hear(case: &mut Case, octets: &[u8]) -> Answer {
    let answer = case.both.hear(octets.to_vec());
    assert_eq!(answer.word, WORD_CYCLIC, "{answer:?}");
    answer
}

fn heard(case: &mut Case, octets: &[u8]) -> u8 {
    hear(case, octets).data
}

/// That station after blocks 1 and 2 of a turn of station 2, and all three of its blocks.
fn with_two_gathered() -> (Case, [Vec<u8>; 3]) {
    let mut case = with_2_and_9();
    let blocks = [1, 2, 3].map(|number| block(&mut case, number));
    for octets in &blocks[..2] {
        assert_eq!(heard(&mut case, octets), KEPT);
    }
    (case, blocks)
}

/// What became of the token and of the data, in words.
fn told(answer: &Answer) -> (&str, &str) {
    let (token, data) = (usize::from(answer.token), usize::from(answer.data));
    (TOKENS[token], DATA[data])
}

/// The octets of both areas of station 2 in the common memory.
fn in_memory(case: &Case) -> &[u8] {
    &case.both.lent().memory[..2 * usize::from(TURN)]
}

fn with_another_octet(octets: &[u8]) -> Vec<u8> {
    let mut other = octets.to_vec();
    *other.last_mut().unwrap() ^= 1;
    other
}

#[test]
fn each_block_of_a_turn_heard_twice() {
    let mut case = with_2_and_9();
    let blocks = [1, 2, 3].map(|number| block(&mut case, number));
    let mut outcomes = Vec::new();
    for octets in &blocks {
        for _ in 0..2 {
            outcomes.push(heard(&mut case, octets));
        }
    }
    assert_eq!(outcomes, [KEPT, REPEAT, KEPT, REPEAT, WRITTEN, DROPPED]);
    let turn = [&blocks[0][64..], &blocks[1][64..], &blocks[2][64..]].concat();
    assert_eq!(blocks[2].len(), 64 + LAST);
    assert_eq!(in_memory(&case), turn);
}

#[test]
fn a_third_copy_too() {
    let mut case = with_2_and_9();
    let first = block(&mut case, 1);
    let outcomes = [(); 3].map(|_| heard(&mut case, &first));
    assert_eq!(outcomes, [KEPT, REPEAT, REPEAT]);
}

#[test]
fn block_1_with_another_octet_starts_afresh() {
    let mut case = with_2_and_9();
    let first = block(&mut case, 1);
    assert_eq!(heard(&mut case, &first), KEPT);
    let other = with_another_octet(&first);
    assert_eq!(heard(&mut case, &other), KEPT);
    assert_eq!(case.both.lent().assembly[..1024], other[64..]);
}

#[test]
fn a_later_block_with_another_octet_drops_the_turn() {
    let (mut case, [_, second, third]) = with_two_gathered();
    let other = with_another_octet(&second);
    assert_eq!(heard(&mut case, &other), DROPPED);
    assert_eq!(heard(&mut case, &third), DROPPED);
}

#[test]
fn a_block_below_the_last_is_no_repeat() {
    let (mut case, [first, _, _]) = with_two_gathered();
    assert_eq!(heard(&mut case, &first), KEPT);
    assert_eq!(case.both.state().core.blocks(), 1);
}

#[test]
fn none_after_a_request_of_its_source() {
    let (mut case, [_, second, _]) = with_two_gathered();
    assert_eq!(case.hear(Frame::request(2, words(TURN))).word, WORD_DONE);
    assert_eq!(heard(&mut case, &second), DROPPED);
}

#[test]
fn none_after_a_block_of_another_source() {
    let (mut case, [_, second, _]) = with_two_gathered();
    let another = Frame::cyclic(Code::Cyclic, 9, 2, of_9(), 1).octets(&mut case.random);
    assert_eq!(heard(&mut case, &another), KEPT);
    assert_eq!(heard(&mut case, &second), DROPPED);
}

#[test]
fn a_turn_of_one_block_is_written_twice() {
    let mut case = participant(settings(5, Areas::default(), 2), &[(2, words(100))]);
    let only = Frame::cyclic(Code::Token, 2, 5, words(100), 1).octets(&mut case.random);
    assert_eq!(heard(&mut case, &only), WRITTEN);
    assert_eq!(heard(&mut case, &only), WRITTEN);
}

/// The code is not compared, and the token of a repeat is read.
#[test]
fn the_token_of_a_repeat_goes_by_the_old_rule() {
    let mut case = with_2_and_9();
    assert_eq!(case.view(), 2);
    let frame = Frame::cyclic(Code::Token, 2, 9, words(TURN), 1);
    let token = frame.octets(&mut case.random);
    let first = hear(&mut case, &token);
    assert_eq!(told(&first), ("passed on", "kept"));
    assert_eq!(case.view(), 9);
    let second = hear(&mut case, &token);
    assert_eq!(told(&second), ("rival passed over", "repeat"));
    assert_eq!(case.view(), 9);
}

#[test]
fn other_areas_than_the_listed_ones_drop_the_turn() {
    let mut case = with_2_and_9();
    let first = block(&mut case, 1);
    assert_eq!(heard(&mut case, &first), KEPT);
    let other = Frame::cyclic(Code::Cyclic, 2, 9, words(TURN + 1), 1);
    let mut octets = other.octets(&mut case.random);
    octets[64..].copy_from_slice(&first[64..]);
    assert_eq!(heard(&mut case, &octets), DROPPED);
}

/// What is compared is the buffer as it is lent now, not what was heard.
#[test]
fn a_host_that_changes_the_assembly_buffer() {
    let (mut case, [_, second, _]) = with_two_gathered();
    case.both.write(|lent| lent.assembly[2047] ^= 1);
    assert_eq!(heard(&mut case, &second), DROPPED);
}

#[test]
fn a_repeat_restarts_the_watch_and_clears_the_misses() {
    let mut case = with_2_and_9();
    let first = block(&mut case, 1);
    assert_eq!(heard(&mut case, &first), KEPT);
    case.both.ticks(20);
    assert_eq!(case.view(), 5);
    assert_eq!(case.both.state().list.entry(2).misses, 1);
    case.both.ticks(19);
    assert_eq!(heard(&mut case, &first), REPEAT);
    assert_eq!(case.both.state().list.entry(2).misses, 0);
    case.both.ticks(19);
    assert_eq!(case.view(), 5);
    case.both.ticks(1);
    assert_eq!(case.view(), 9);
}

/// Nothing in a frame says of which turn it is: block 2 of a new turn, with the data of the old
/// one, is a repeat, and the new turn's block 3 joins the old turn's blocks 1 and 2.
#[test]
fn blocks_of_two_turns_can_be_joined() {
    let (mut case, [first, second, third]) = with_two_gathered();
    // The old turn's block 3 is lost, and so is the new turn's block 1.
    assert_eq!(heard(&mut case, &second), REPEAT);
    assert_eq!(heard(&mut case, &third), WRITTEN);
    let joined = [&first[64..], &second[64..], &third[64..]].concat();
    assert_eq!(in_memory(&case), joined);
}
