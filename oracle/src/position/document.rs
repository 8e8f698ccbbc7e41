//! Document 01's boards, as far as one check, switch, step or result goes, with the answers that
//! its words give, worked out by hand.

use super::{Call, PositionCase};
use crate::answer::Answer;
use crate::boards::board;
use crate::difference::{Difference, told};
use crate::plain;
use munchalep::Board;

/// A call, and what the document answers.
type Fact = (PositionCase, Answer);

/// Points with their checkers, as of a board.
type Entries = [(usize, i8)];

/// The calls of all facts.
pub(super) fn cases() -> Vec<PositionCase> {
    facts().into_iter().map(|(case, _)| case).collect()
}

/// The boards of all facts.
pub fn boards() -> Vec<Board> {
    cases().into_iter().map(|case| case.board).collect()
}

/// Holds the sides to each other, and to the document's own answers.
pub fn compare() -> Result<(), Difference> {
    facts().into_iter().try_for_each(|(case, says)| told(case, says))
}

fn facts() -> Vec<Fact> {
    [boards_to_try(), slips(), results()].concat()
}

/// "Boards to try", by their numbers.
fn boards_to_try() -> Vec<Fact> {
    vec![
        // 1, and the direct bear-off, which is no full play but a legal step.
        step(&[(5, 1), (20, -1)], 5, 1, Ok(&[(4, 1), (20, -1)])),
        step(&[(4, 1), (20, -1)], 4, 6, Ok(&[(20, -1)])),
        step(&[(5, 1), (20, -1)], 5, 6, Ok(&[(20, -1)])),
        // 2
        step(&[(5, 1), (4, -1), (20, -1)], 5, 1, Ok(&[(4, 1), (0, -1), (20, -1)])),
        // 3
        step(&[(25, 5), (10, -1)], 25, 3, Ok(&[(25, 4), (22, 1), (10, -1)])),
        step(&[(25, 1), (22, 4), (10, -1)], 22, 3, Err(9)),
        // 4
        step(&[(25, 1), (14, -2)], 25, 6, Ok(&[(19, 1), (14, -2)])),
        step(&[(25, 1), (14, -2)], 25, 5, Ok(&[(20, 1), (14, -2)])),
        step(&[(19, 1), (14, -2)], 19, 5, Err(9)),
        step(&[(20, 1), (14, -2)], 20, 6, Err(9)),
        // 5
        step(&[(25, 1), (19, -2), (20, -2)], 25, 6, Err(9)),
        step(&[(25, 1), (19, -2), (20, -2)], 25, 5, Err(9)),
        // 6
        step(&[(13, 1), (2, -2)], 13, 6, Ok(&[(7, 1), (2, -2)])),
        step(&[(7, 1), (2, -2)], 7, 5, Err(9)),
        step(&[(8, 1), (2, -2)], 8, 6, Err(9)),
        // 7 and 8
        step(&[(13, 1), (12, -1)], 13, 1, Ok(&[(12, 1), (0, -1)])),
        step(&[(13, 1), (12, -1)], 13, 2, Ok(&[(11, 1), (12, -1)])),
        step(&[(13, 1), (20, -1)], 13, 2, Ok(&[(11, 1), (20, -1)])),
        // 9
        step(&[(1, 2), (20, -1)], 1, 6, Ok(&[(1, 1), (20, -1)])),
        // 10 and 11: both boards are accepted, and the second has no result.
        check(&plain::start(), Ok(())),
        check(&board(&[]), Ok(())),
        result(&[], Err(6)),
        // "15 checkers of x accepted, 16 refused"
        check(&board(&[(24, 15)]), Ok(())),
        check(&board(&[(24, 16)]), Err(1)),
        check(&board(&[(24, 15), (25, 1)]), Err(1)),
        check(&board(&[(1, -15)]), Ok(())),
        check(&board(&[(0, -1), (1, -15)]), Err(2)),
    ]
}

/// "Slips that come easily".
fn slips() -> Vec<Fact> {
    vec![
        // Entry 0 is no point when p = d.
        step(&[(3, 1), (0, -2)], 3, 3, Ok(&[(0, -2)])),
        // 25 - i, not 24 - i.
        switch(&[(25, 2), (24, 1), (0, -1)], Ok(&[(0, -2), (1, -1), (25, 1)])),
        // No bear-off below the highest checker.
        step(&[(6, 1), (2, 1), (20, -1)], 2, 4, Err(9)),
        step(&[(7, 1), (2, 1), (20, -1)], 2, 2, Err(9)),
    ]
}

/// "Result and phase", every number, and the order of a board's refusals.
fn results() -> Vec<Fact> {
    vec![
        result(&[(13, 1), (12, -1)], Ok(0)),
        result(&[(11, 1), (12, -1)], Ok(1)),
        result(&[(12, -14)], Ok(2)),
        result(&[(7, -15)], Ok(3)),
        result(&[(6, -1), (7, -14)], Ok(4)),
        result(&[(0, -1), (7, -14)], Ok(4)),
        result(&[(12, 14)], Ok(5)),
        result(&[(18, 15)], Ok(6)),
        result(&[(19, 1), (18, 14)], Ok(7)),
        result(&[(25, 1), (18, 14)], Ok(7)),
        result(&[(24, 16), (1, -16), (25, -1), (0, 1)], Err(1)),
        result(&[(1, -16), (25, -1), (0, 1)], Err(2)),
        result(&[(25, -1), (0, 1)], Err(3)),
        result(&[(0, 1)], Err(4)),
    ]
}

fn check(given: &Board, says: Result<(), u8>) -> Fact {
    fact(*given, Call::Check, Answer::of_value(says.map(|()| 0)))
}

fn switch(on: &Entries, says: Result<&Entries, u8>) -> Fact {
    fact(board(on), Call::Switch, Answer::of_board(says.map(board)))
}

fn step(on: &Entries, from: usize, die: usize, says: Result<&Entries, u8>) -> Fact {
    fact(board(on), Call::Step { from, die }, Answer::of_board(says.map(board)))
}

fn result(on: &Entries, says: Result<u8, u8>) -> Fact {
    fact(board(on), Call::Result, Answer::of_value(says))
}

fn fact(board: Board, call: Call, says: Answer) -> Fact {
    (PositionCase { board, call }, says)
}
