//! Document 01's cards, and cards at its limits, with the answers that its words give, worked out by
//! hand.

use super::answer::Answer;
use super::games::shut_out;
use super::{Call, CardCase};
use crate::boards::board;
use crate::difference::{Difference, told};
use crate::plain;
use crate::plain::card::{MOST_TURNS, Refused, START, TURN, start_record, turn_record};
use munchalep::Board;

/// A call, and what the document answers.
type Fact = (CardCase, Answer);

/// The card that the document prints, and its text.
pub const EXAMPLE: [u8; 17] = [
    0x53, 0x54, 0x10, 0x00, 0x00, 0x40, 0x00, 0x00, 0x00, 0x00, 0x00, 0x00, 0x54, 0x55, 0x61, 0x00,
    0x00,
];
pub const EXAMPLE_TEXT: &str =
    "start 10000040000000000000\n1 61 0 1 00000020000000000000\nresult 5\n";

/// The cards of all facts that are read.
pub(super) fn cards() -> Vec<Vec<u8>> {
    let is_read = |(case, _): &Fact| matches!(case.call, Call::Read);
    facts().into_iter().filter(is_read).map(|(case, _)| case.card).collect()
}

/// Holds the sides to each other, and to the document's own answers.
pub fn compare() -> Result<(), Difference> {
    facts().into_iter().try_for_each(|(case, says)| told(case, says))
}

fn facts() -> Vec<Fact> {
    let facts = [example(), readings(), limits(), beginnings()];
    facts.into_iter().flatten().collect()
}

/// "For the 17 bytes ..": read, its two positions, and its two records written.
fn example() -> Vec<Fact> {
    let before = board(&[(5, 1), (20, -1)]);
    let after = board(&[(5, 1)]);
    let add = |room| Call::Add { room, length: START, dice: (1, 6), end: after };
    let start = &EXAMPLE[..START];
    vec![
        reads(&EXAMPLE, 1),
        reads(start, 0),
        (case(&EXAMPLE, Call::Position { number: 0 }), Answer::position(before)),
        (case(&EXAMPLE, Call::Position { number: 1 }), Answer::position(after)),
        refused(&EXAMPLE, Call::Position { number: 2 }, 36, 0),
        (case(start, add(17)), Answer::value(17, EXAMPLE.to_vec())),
        refused(start, add(16), 19, 0),
        refused(&EXAMPLE, Call::Add { room: 16, length: 17, dice: (9, 9), end: after }, 19, 0),
        refused(&EXAMPLE, Call::Add { room: 17, length: 17, dice: (9, 9), end: before }, 25, 0),
        refused(start, Call::Add { room: 12, length: 12, dice: (7, 1), end: before }, 7, 0),
        refused(start, Call::Add { room: 12, length: 12, dice: (6, 1), end: before }, 12, 0),
        refused(start, Call::Add { room: 12, length: 11, dice: (0, 1), end: before }, 20, 0),
    ]
}

/// "Reading: 20, 21, the key's refusal, 6, 5; then each turn 22, 23, 24, 25, 26, 11."
fn readings() -> Vec<Fact> {
    let with = |changes: &[(usize, u8)]| {
        let mut card = EXAMPLE.to_vec();
        changes.iter().for_each(|&(place, byte)| card[place] = byte);
        card
    };
    let finished = [&EXAMPLE[..], &turn_record(0x61, 0)].concat();
    let no_roll = with(&[(14, 0x16), (15, 1)]);
    vec![
        refused(&[], Call::Read, 20, 0),
        refused(&[0; 11], Call::Read, 20, 0),
        refused(&with(&[(0, 0x54)]), Call::Read, 21, 0),
        refused(&with(&[(1, 0x53), (2, 0xFF), (3, 0xFF)]), Call::Read, 21, 0),
        refused(&with(&[(2, 0xFF), (3, 0xFF)]), Call::Read, 15, 0),
        refused(&with(&[(11, 0x80)]), Call::Read, 18, 0),
        refused(&with(&[(2, 0), (5, 0)]), Call::Read, 6, 0),
        refused(&with(&[(2, 0), (5, 0x20)]), Call::Read, 5, 0),
        refused(&EXAMPLE[..16], Call::Read, 23, 12),
        refused(&EXAMPLE[..13], Call::Read, 23, 12),
        refused(&with(&[(12, 0x53), (14, 0)]), Call::Read, 24, 12),
        refused(&with(&[(13, 0x54), (14, 0)]), Call::Read, 24, 12),
        refused(&finished, Call::Read, 25, 17),
        refused(&finished[..21], Call::Read, 23, 17),
        refused(&[&EXAMPLE[..], &[0x54, 0x54, 0, 0, 0]].concat(), Call::Read, 24, 17),
        refused(&[&EXAMPLE[..], &[0x54, 0x55, 0, 0, 0]].concat(), Call::Read, 25, 17),
        refused(&no_roll, Call::Read, 26, 12),
        refused(&with(&[(15, 1)]), Call::Read, 11, 12),
        refused(&with(&[(16, 1)]), Call::Read, 11, 12),
        // The whole card is read before a position is.
        refused(&with(&[(16, 1)]), Call::Position { number: 0 }, 11, 12),
        refused(&no_roll, Call::Position { number: 9 }, 26, 12),
    ]
}

/// "1,000 turns accepted, one byte more is 22 at 5012."
fn limits() -> Vec<Fact> {
    let longest = longest();
    let length = longest.len();
    assert_eq!(length, 5012, "a card of 1,000 turns");
    // Neither side can enter: each turn the board is switched, and 1,000 switches are none.
    let (last, next) = (shut_out(), plain::switch(&shut_out()).expect("the board is accepted"));
    let add = |length: usize, room: usize| Call::Add { room, length, dice: (6, 5), end: next };
    let almost = &longest[..length - TURN];
    let with = |bytes: &[u8]| [&longest[..], bytes].concat();
    vec![
        reads(&longest, MOST_TURNS),
        reads(almost, MOST_TURNS - 1),
        refused(&with(&[0]), Call::Read, 22, length),
        refused(&with(&turn_record(0x65, 0)), Call::Read, 22, length),
        refused(&with(&longest), Call::Read, 22, length),
        (case(&longest, Call::Position { number: MOST_TURNS }), Answer::position(last)),
        refused(&longest, Call::Position { number: MOST_TURNS + 1 }, 36, 0),
        refused(&longest, add(length, length), 22, 0),
        refused(&longest, add(length, length + TURN), 22, 0),
        refused(&longest, add(length + 1, length), 19, 0),
    ]
}

/// The card of a game of 1,000 turns in which neither side can enter.
pub(super) fn longest() -> Vec<u8> {
    let start = start_record(&shut_out()).expect("a game can start here");
    [&start[..], &turn_record(0x65, 0).repeat(MOST_TURNS)].concat()
}

/// "Beginning a card refuses 1 to 4, 6, 5, 19, then writes 12 bytes."
fn beginnings() -> Vec<Fact> {
    let begin = |board: Board, room: usize| case(&[], Call::Begin { board, room });
    let refused = |board: Board, room: usize, number: u8| {
        let case = begin(board, room);
        let buffer = case.buffer();
        (case, Answer::refused(Refused::bare(number), buffer))
    };
    let start = [0x53, 0x54, 0xE0, 0x73, 0xF0, 0x01, 0x30, 0xE0, 0x73, 0xF0, 0x01, 0x30];
    vec![
        (begin(plain::start(), START), Answer::value(START, start.to_vec())),
        (begin(plain::start(), START + 1), Answer::value(START, [&start[..], &[0x55]].concat())),
        refused(plain::start(), START - 1, 19),
        refused(plain::start(), 0, 19),
        refused(board(&[(24, 16), (1, -16), (25, -1), (0, 1)]), 0, 1),
        refused(board(&[(1, -16), (25, -1), (0, 1)]), 0, 2),
        refused(board(&[(25, -1), (0, 1)]), 0, 3),
        refused(board(&[(0, 1)]), 0, 4),
        refused([0; 26], 0, 6),
        refused(board(&[(5, 1)]), 0, 5),
        refused(board(&[(5, -1)]), START, 5),
    ]
}

fn case(card: &[u8], call: Call) -> CardCase {
    CardCase { card: card.to_vec(), call }
}

fn reads(card: &[u8], turns: usize) -> Fact {
    (case(card, Call::Read), Answer::value(turns, Vec::new()))
}

fn refused(card: &[u8], call: Call, number: u8, at: usize) -> Fact {
    let case = case(card, call);
    let buffer = case.buffer();
    (case, Answer::refused(Refused { number, at }, buffer))
}
