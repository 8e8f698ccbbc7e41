//! Boards with the inputs that document 01's words give, worked out by hand.

use super::answer::Answer;
use super::{Call, InputsCase};
use crate::boards::board;
use crate::difference::{Difference, told};
use crate::plain::{self, Net};
use munchalep::Board;

/// A call, and what the document answers.
type Fact = (InputsCase, Answer);

/// Points with their checkers, as of a board; or places with their inputs.
type Entries = [(usize, i8)];

/// The boards of all facts.
pub(super) fn boards() -> Vec<Board> {
    facts().into_iter().map(|(case, _)| case.board).collect()
}

/// Holds the sides to each other, and to the document's own answers.
pub fn compare() -> Result<(), Difference> {
    facts().into_iter().try_for_each(|(case, says)| told(case, says))
}

fn facts() -> Vec<Fact> {
    let facts = [counts(), places(), refusals()];
    facts.into_iter().flatten().collect()
}

/// One to fifteen checkers on a point: the four values, each a place after the other.
fn counts() -> Vec<Fact> {
    let contact = |on: &Entries, says: &Entries| filled(on, Net::Contact, says);
    vec![
        contact(&[], &[(0, 15), (1, 15)]),
        contact(&[(1, 1)], &[(0, 14), (1, 15), (6, 1)]),
        contact(&[(1, 2)], &[(0, 13), (1, 15), (7, 1)]),
        contact(&[(1, 3)], &[(0, 12), (1, 15), (8, 1)]),
        contact(&[(1, 4)], &[(0, 11), (1, 15), (8, 1), (9, 1)]),
        contact(&[(1, 15)], &[(1, 15), (8, 1), (9, 12)]),
        contact(&[(24, -15)], &[(0, 15), (200, 1), (201, 12)]),
    ]
}

/// The first and the last point of each stretch.
fn places() -> Vec<Fact> {
    let bars = [(25, 1), (0, -1)];
    let ends = [(1, 1), (24, -1)];
    let turned = [(1, -1), (24, 1)];
    let inner = [(23, 1), (2, -1)];
    let off = [(0, 14), (1, 14)];
    let contact = |on: &Entries, at: [usize; 2]| {
        filled(on, Net::Contact, &[&off[..], &at.map(|place| (place, 1))].concat())
    };
    let race = |on: &Entries, at: &[(usize, i8)]| filled(on, Net::Race, &[&off[..], at].concat());
    vec![
        // Contact: x's bar at 2, x on 1 at 6, on 24 at 98, o's bar at 102, o on 1 at 106, on 24 at
        // 198.
        contact(&bars, [2, 102]),
        contact(&ends, [6, 198]),
        contact(&turned, [98, 106]),
        // Race: x on 1 at 2, on 23 at 90, o on 2 at 94, on 24 at 182; the bars, x on 24 and o on 1
        // have no place.
        race(&bars, &[]),
        race(&ends, &[(2, 1), (182, 1)]),
        race(&turned, &[]),
        race(&inner, &[(90, 1), (94, 1)]),
        // One input is that of its place.
        one(&plain::start(), Net::Contact, 29, Ok(2)),
        one(&plain::start(), Net::Contact, 201, Ok(0)),
        one(&plain::start(), Net::Race, 25, Ok(2)),
        one(&plain::start(), Net::Race, 185, Ok(0)),
    ]
}

/// "Inputs: board, then 13 or 14."
fn refusals() -> Vec<Fact> {
    let refused = [(24, 16), (1, -16), (25, -1), (0, 1)];
    let mut facts = Vec::new();
    for net in Net::ALL {
        facts.extend((0..4).map(|n| fill(board(&refused[n..]), net, 0, Err(n as u8 + 1))));
        facts.extend((0..4).map(|n| one(&board(&refused[n..]), net, 999, Err(n as u8 + 1))));
        facts.extend([0, 185, 187, 201, 203].map(|length| fill([0; 26], net, length, Err(13))));
        facts.push(one(&[0; 26], net, net.size(), Err(14)));
        facts.push(one(&[0; 26], net, usize::MAX, Err(14)));
    }
    facts.push(fill([0; 26], Net::Contact, 186, Err(13)));
    facts.push(fill([0; 26], Net::Race, 202, Err(13)));
    facts
}

/// All inputs are 0 but those that are said, each by its place.
fn filled(on: &Entries, net: Net, says: &Entries) -> Fact {
    let mut inputs = vec![0.0; net.size()];
    for &(place, input) in says {
        inputs[place] = f32::from(input);
    }
    fill(board(on), net, net.size(), Ok(inputs))
}

fn fill(board: Board, net: Net, length: usize, says: Result<Vec<f32>, u8>) -> Fact {
    let says = says.map_or_else(Answer::refused, |inputs| Answer::written(&inputs));
    (InputsCase { board, net, call: Call::Fill { length } }, says)
}

fn one(on: &Board, net: Net, place: usize, says: Result<u8, u8>) -> Fact {
    let says = says.map_or_else(Answer::refused, |input| Answer::written(&[f32::from(input)]));
    (InputsCase { board: *on, net, call: Call::One { place } }, says)
}
