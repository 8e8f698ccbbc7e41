//! "Steps and ends" and "List order" as plain code. What a legal end is stands apart from the order
//! of the list, and each call holds the two to each other.

use super::{X_BAR, check, dice_byte, is_legal, o_checkers, stepped, switch, x_checkers};
use munchalep::Board;
use std::collections::{BTreeSet, HashSet};
use std::ops::RangeInclusive;

/// Every entry where a checker of x may stand.
const ORIGINS: RangeInclusive<usize> = 1..=X_BAR;
const POINTS: RangeInclusive<usize> = 1..=24;

/// The refusals of a board from which a play is asked or a card starts. Order: 1 to 4, 6, 5.
pub fn started(board: &Board) -> Result<(), u8> {
    check(board)?;
    match (x_checkers(board), o_checkers(board)) {
        (0, 0) => Err(6),
        (0, _) | (_, 0) => Err(5),
        _ => Ok(()),
    }
}

/// The refusals of a call that asks for a play. Order: 1 to 4, 6, 5, 7.
pub fn play(board: &Board, dice: (usize, usize)) -> Result<(), u8> {
    started(board)?;
    dice_byte(dice).map(|_| ())
}

/// The ends of a roll in the list's order, sides switched.
pub fn ends(board: &Board, dice: (usize, usize)) -> Result<Vec<Board>, u8> {
    play(board, dice)?;
    let (small, large) = (dice.0.min(dice.1), dice.0.max(dice.1));
    let listed = if small == large { double(board, small) } else { mixed(board, small, large) };
    let distinct: BTreeSet<Board> = listed.iter().copied().collect();
    let is_legal_ends = distinct.len() == listed.len() && distinct == legal(board, small, large);
    assert!(is_legal_ends, "the list is not the legal ends, each once: {board:?}, {dice:?}");
    let switched = |end| switch(end).expect("an end is an accepted board");
    Ok(listed.iter().map(switched).collect())
}

/// The same where a play is not refused.
pub fn ends_of(board: &Board, dice: (usize, usize)) -> Vec<Board> {
    ends(board, dice).expect("a play is not refused")
}

/// The legal ends, by plays alone: a play uses as many dice as can be used, the larger one where
/// only one can, and where none can the board stays.
fn legal(board: &Board, small: usize, large: usize) -> BTreeSet<Board> {
    let plays = |dice: &[usize]| reached(board, dice);
    if small == large {
        let most = (0..=4).rev().map(|steps| plays(&vec![small; steps]));
        return most.into_iter().find(|ends| !ends.is_empty()).expect("no step is a play");
    }
    let both = &plays(&[small, large]) | &plays(&[large, small]);
    first_of([both, plays(&[large]), plays(&[small]), plays(&[])], BTreeSet::is_empty)
}

/// The boards after legal steps by all `dice`, in their order, from anywhere.
fn reached(board: &Board, dice: &[usize]) -> BTreeSet<Board> {
    let mut boards = BTreeSet::from([*board]);
    for &die in dice {
        boards = boards.iter().flat_map(|board| steps(board, die, ORIGINS)).collect();
    }
    boards
}

/// "Double: enter up to four, then origins low to high, each next one at or below the one before."
fn double(board: &Board, die: usize) -> Vec<Board> {
    let (mut entered, mut left) = (*board, 4);
    while left > 0 && is_legal(&entered, X_BAR, die) {
        entered = stepped(&entered, X_BAR, die);
        left -= 1;
    }
    let lists = (0..=left).rev().map(|steps| at_or_below(&entered, die, steps, 24));
    lists.into_iter().find(|list| !list.is_empty()).expect("no step is a play")
}

/// The boards after `left` steps, each from a point at or below the one before.
fn at_or_below(board: &Board, die: usize, left: usize, highest: usize) -> Vec<Board> {
    if left == 0 {
        return vec![*board];
    }
    let origins = (1..=highest).filter(|&p| is_legal(board, p, die));
    origins.flat_map(|p| at_or_below(&stepped(board, p, die), die, left - 1, p)).collect()
}

/// The list of a mixed roll, each end at its first place.
fn mixed(board: &Board, small: usize, large: usize) -> Vec<Board> {
    let both = match board[X_BAR] {
        // "Smaller die first from 24 down, then the larger from that point down; then larger first
        // from low to high, smaller from low to high, strictly below."
        0 => [
            two_steps(board, (small, POINTS.rev()), |p| (large, (1..=p).rev())),
            two_steps(board, (large, POINTS), |p| (small, 1..=p - 1)),
        ],
        // "Enter with the larger, then the smaller die's origins low to high; then enter with the
        // smaller, larger's origins low to high."
        1 => [
            two_steps(board, (large, [X_BAR]), |_| (small, POINTS)),
            two_steps(board, (small, [X_BAR]), |_| (large, POINTS)),
        ],
        // "Two or more on the bar: one end."
        _ => [two_steps(board, (large, [X_BAR]), |_| (small, [X_BAR])), Vec::new()],
    };
    // "One die: low to high."
    let one = |die| steps(board, die, ORIGINS);
    let listed = first_of([both.concat(), one(large), one(small), vec![*board]], Vec::is_empty);
    let mut met = HashSet::new();
    listed.into_iter().filter(|&end| met.insert(end)).collect()
}

/// The boards after two steps, each with its die and its origins in order; those of the second may
/// depend on the first.
fn two_steps<O: IntoIterator<Item = usize>>(
    board: &Board,
    first: (usize, impl IntoIterator<Item = usize>),
    second: impl Fn(usize) -> (usize, O),
) -> Vec<Board> {
    let mut ends = Vec::new();
    let (die, origins) = first;
    for p in origins.into_iter().filter(|&p| is_legal(board, p, die)) {
        let (next_die, next_origins) = second(p);
        ends.extend(steps(&stepped(board, p, die), next_die, next_origins));
    }
    ends
}

/// The boards after one legal step from `origins`, in their order.
fn steps(board: &Board, die: usize, origins: impl IntoIterator<Item = usize>) -> Vec<Board> {
    let legal = origins.into_iter().filter(|&p| is_legal(board, p, die));
    legal.map(|p| stepped(board, p, die)).collect()
}

/// The first that is not empty; the last one is not.
fn first_of<C>(ends: impl IntoIterator<Item = C>, is_empty: impl Fn(&C) -> bool) -> C {
    ends.into_iter().find(|ends| !is_empty(ends)).expect("the last one is not empty")
}
