//! Document 01's boards, as far as the ends of a roll go, with the answers that its words give,
//! worked out by hand. Ends are told from the mover's side, before switching.

use super::answer::Answer;
use super::{Call, MovesCase};
use crate::boards::board;
use crate::difference::{Difference, told};
use crate::plain;
use munchalep::{Board, END_BYTES};

/// A call, and what the document answers.
type Fact = (MovesCase, Answer);

/// Points with their checkers, as of a board.
type Entries = [(usize, i8)];

/// The boards and dice of all facts.
pub(super) fn rolls() -> Vec<(Board, (usize, usize))> {
    facts().into_iter().map(|(case, _)| (case.board, case.dice)).collect()
}

/// Holds the sides to each other, and to the document's own answers.
pub fn compare() -> Result<(), Difference> {
    facts().into_iter().try_for_each(|(case, says)| told(case, says))
}

fn facts() -> Vec<Fact> {
    let facts = [boards_to_try(), orders(), refusals()];
    facts.into_iter().flatten().collect()
}

/// "Boards to try", by their numbers.
fn boards_to_try() -> Vec<Fact> {
    vec![
        // 1: the direct bear-off is no full play.
        listed(&[(5, 1), (20, -1)], (6, 1), &[&[(20, -1)]]),
        // 2
        listed(&[(5, 1), (4, -1), (20, -1)], (6, 1), &[&[(0, -1), (20, -1)]]),
        // 3
        listed(&[(25, 5), (10, -1)], (3, 3), &[&[(25, 1), (22, 4), (10, -1)]]),
        // 4
        listed(&[(25, 1), (14, -2)], (6, 5), &[&[(19, 1), (14, -2)]]),
        // 5
        listed(&[(25, 1), (19, -2), (20, -2)], (6, 5), &[&[(25, 1), (19, -2), (20, -2)]]),
        // 6
        listed(&[(13, 1), (2, -2)], (6, 5), &[&[(7, 1), (2, -2)]]),
        // 7
        listed(&[(13, 1), (12, -1)], (2, 1), &[&[(10, 1), (0, -1)], &[(10, 1), (12, -1)]]),
        // 8
        listed(&[(13, 1), (20, -1)], (2, 1), &[&[(10, 1), (20, -1)]]),
        // 9
        listed(&[(1, 2), (20, -1)], (6, 6), &[&[(20, -1)]]),
        // 10: four origins of the 3 with three of the 1, and one checker by both from each origin
        // of the 3.
        counted(&plain::start(), (3, 1), 16),
        // 11
        refused(&[], (6, 1), Call::List { length: 0 }, 6),
    ]
}

/// "List order".
fn orders() -> Vec<Fact> {
    let o = (20, -1);
    vec![
        listed(
            &[(10, 1), (5, 1), o],
            (2, 1),
            &[
                &[(7, 1), (5, 1), o],
                &[(9, 1), (3, 1), o],
                &[(10, 1), (2, 1), o],
                &[(8, 1), (4, 1), o],
            ],
        ),
        listed(
            &[(25, 1), (10, 1), o],
            (2, 1),
            &[&[(23, 1), (9, 1), o], &[(22, 1), (10, 1), o], &[(24, 1), (8, 1), o]],
        ),
        listed(&[(25, 3), (10, 1), o], (1, 2), &[&[(25, 1), (24, 1), (23, 1), (10, 1), o]]),
        listed(
            &[(10, 1), (5, 1), o],
            (1, 1),
            &[
                &[(10, 1), (1, 1), o],
                &[(9, 1), (2, 1), o],
                &[(8, 1), (3, 1), o],
                &[(7, 1), (4, 1), o],
                &[(6, 1), (5, 1), o],
            ],
        ),
        // One die, low to high: the 6 is played from 8 or from 14, and then no 5.
        listed(
            &[(14, 1), (8, 1), (9, -2), (3, -2)],
            (5, 6),
            &[&[(14, 1), (2, 1), (9, -2), (3, -2)], &[(8, 2), (9, -2), (3, -2)]],
        ),
    ]
}

/// The order of refusals, and the last ones.
fn refusals() -> Vec<Fact> {
    let (two, list) = ([(13, 1), (12, -1)], Call::List { length: 0 });
    vec![
        refused(&[(24, 16), (1, -16), (25, -1), (0, 1)], (0, 7), list, 1),
        refused(&[(1, -16), (25, -1), (0, 1)], (0, 7), list, 2),
        refused(&[(25, -1), (0, 1)], (0, 7), list, 3),
        refused(&[(0, 1)], (0, 7), list, 4),
        refused(&[], (0, 7), list, 6),
        refused(&[(5, 1)], (0, 7), list, 5),
        refused(&[(5, -1)], (0, 7), Call::Count, 5),
        refused(&two, (0, 1), list, 7),
        refused(&two, (1, 7), Call::End { number: 2 }, 7),
        refused(&two, (2, 1), Call::End { number: 2 }, 11),
        fact(board(&two), (2, 1), Call::List { length: 51 }, Answer::refused(10, 2)),
    ]
}

fn listed(on: &Entries, dice: (usize, usize), ends: &[&Entries]) -> Fact {
    let switched = |end: &&Entries| plain::switch(&board(end)).expect("an end is accepted");
    let call = Call::List { length: ends.len() * END_BYTES };
    let ends = ends.iter().map(switched).collect();
    fact(board(on), dice, call, Answer::of_ends(call, &Ok(ends)))
}

fn counted(given: &Board, dice: (usize, usize), ends: usize) -> Fact {
    let says = Answer::of_ends(Call::Count, &Ok(vec![[0; 26]; ends]));
    fact(*given, dice, Call::Count, says)
}

fn refused(on: &Entries, dice: (usize, usize), call: Call, number: u8) -> Fact {
    fact(board(on), dice, call, Answer::refused(number, 0))
}

fn fact(board: Board, dice: (usize, usize), call: Call, says: Answer) -> Fact {
    (MovesCase { board, dice, call }, says)
}
