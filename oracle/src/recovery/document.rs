//! Document 01's boards, as far as recovery goes, with the answers that its words give, worked out
//! by hand.

use super::RecoveryCase;
use super::answer::Answer;
use crate::boards::board;
use crate::difference::{Difference, told};
use crate::plain;
use munchalep::{Board, MOST_STEPS, Step};

/// A call, and what the document answers.
type Fact = (RecoveryCase, Answer);

/// Points with their checkers, as of a board.
type Entries = [(usize, i8)];

/// The cases of all facts.
pub(super) fn cases() -> Vec<RecoveryCase> {
    facts().into_iter().map(|(case, _)| case).collect()
}

/// Holds the sides to each other, and to the document's own answers.
pub fn compare() -> Result<(), Difference> {
    facts().into_iter().try_for_each(|(case, says)| told(case, says))
}

fn facts() -> Vec<Fact> {
    let facts = [boards_to_try(), refusals()];
    facts.into_iter().flatten().collect()
}

/// "Boards to try", by their numbers.
fn boards_to_try() -> Vec<Fact> {
    let o = (20, -1);
    let shut_out = [(25, 1), (19, -2), (20, -2)];
    vec![
        // 1
        steps(&[(5, 1), o], &[o], (6, 1), &[(5, 4), (4, 0)]),
        // 2
        steps(&[(5, 1), (4, -1), o], &[(0, -1), o], (6, 1), &[(5, 4), (4, 0)]),
        // 3
        steps(&[(25, 5), (10, -1)], &[(25, 1), (22, 4), (10, -1)], (3, 3), &[(25, 22); 4]),
        // 4
        steps(&[(25, 1), (14, -2)], &[(19, 1), (14, -2)], (6, 5), &[(25, 19)]),
        // 5
        steps(&shut_out, &shut_out, (6, 5), &[]),
        // 6
        steps(&[(13, 1), (2, -2)], &[(7, 1), (2, -2)], (6, 5), &[(13, 7)]),
        // 7: over 11 there is no hit, over 12 there is one.
        steps(&[(13, 1), (12, -1)], &[(10, 1), (12, -1)], (2, 1), &[(13, 11), (11, 10)]),
        steps(&[(13, 1), (12, -1)], &[(10, 1), (0, -1)], (2, 1), &[(13, 12), (12, 10)]),
        // 8: either stopover does, and the Rust tries the smaller die first.
        steps(&[(13, 1), o], &[(10, 1), o], (2, 1), &[(13, 12), (12, 10)]),
        // 9
        steps(&[(1, 2), o], &[o], (6, 6), &[(1, 0), (1, 0)]),
        // 10
        refused(plain::start(), plain::start(), (3, 1), MOST_STEPS, 12),
    ]
}

/// The order of refusals, and the last ones.
fn refusals() -> Vec<Fact> {
    let (old, end) = (board(&[(13, 1), (12, -1)]), board(&[(10, 1), (0, -1)]));
    let too_many = board(&[(24, 16), (1, -16), (25, -1), (0, 1)]);
    let switched = plain::switch(&end).expect("the end is accepted");
    vec![
        refused(too_many, end, (0, 7), 0, 1),
        refused(board(&[(1, -16), (25, -1), (0, 1)]), end, (0, 7), 0, 2),
        refused(board(&[(25, -1), (0, 1)]), end, (0, 7), 0, 3),
        refused(board(&[(0, 1)]), end, (0, 7), 0, 4),
        refused([0; 26], end, (0, 7), 0, 6),
        refused(board(&[(5, 1)]), end, (0, 7), 0, 5),
        refused(old, too_many, (0, 1), 0, 7),
        refused(old, end, (1, 7), 0, 7),
        refused(old, end, (usize::MAX, 1), 0, 7),
        refused(old, too_many, (2, 1), 0, 12),
        refused(old, switched, (2, 1), 0, 12),
        refused(old, end, (2, 1), 0, 27),
        refused(old, end, (2, 1), 1, 27),
    ]
}

fn steps(old: &Entries, end: &Entries, dice: (usize, usize), says: &[(u8, u8)]) -> Fact {
    let says: Vec<Step> = says.iter().map(|&(from, to)| Step { from, to }).collect();
    let case = RecoveryCase { old: board(old), end: board(end), dice, places: says.len() };
    (case, Answer::of_steps(&says))
}

fn refused(old: Board, end: Board, dice: (usize, usize), places: usize, number: u8) -> Fact {
    (RecoveryCase { old, end, dice, places }, Answer::refused(number))
}
