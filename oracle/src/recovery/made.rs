//! Second boards, most of which are no legal end.

use super::RecoveryCase;
use crate::rng::Rng;
use crate::{judge, plain};
use munchalep::Board;

/// Boards in the place of a case's end: damaged, of another roll, switched, not played to, not
/// accepted.
pub fn no_ends(case: &RecoveryCase, rng: &mut Rng) -> Vec<Board> {
    let end = &case.end;
    let mut boards = vec![
        case.old,
        end.map(|entry| entry.wrapping_neg()),
        switched(end),
        switched(&case.old),
        changed(end, rng),
        changed(end, rng),
        moved(end, rng),
        moved(end, rng),
        swapped(end, rng),
        not_accepted(end, rng),
        not_accepted(end, rng),
        [0; 26],
        std::array::from_fn(|_| rng.next() as i8),
    ];
    boards.extend(stepped_once(case, rng));
    boards.extend(of_another_roll(&case.old, rng));
    boards
}

/// The side switch, whatever the board.
fn switched(board: &Board) -> Board {
    std::array::from_fn(|i| board[25 - i].wrapping_neg())
}

/// One entry has a checker of x more, or fewer.
fn changed(board: &Board, rng: &mut Rng) -> Board {
    let (i, more) = (rng.below(26), rng.pick(&[-1, 1]));
    let mut changed = *board;
    changed[i] = changed[i].wrapping_add(more);
    changed
}

/// One checker of a side stands elsewhere, the number of checkers being the same.
fn moved(board: &Board, rng: &mut Rng) -> Board {
    let (side, mut moved) = (rng.pick(&[-1, 1]), *board);
    let held: Vec<usize> = (0..26).filter(|&i| board[i].signum() == side).collect();
    let free: Vec<usize> = (0..26).filter(|&i| board[i].signum() != -side).collect();
    if !held.is_empty() && !free.is_empty() {
        moved[rng.pick(&held)] -= side;
        let to = rng.pick(&free);
        moved[to] = moved[to].wrapping_add(side);
    }
    moved
}

/// Two entries have changed places.
fn swapped(board: &Board, rng: &mut Rng) -> Board {
    let mut swapped = *board;
    swapped.swap(rng.below(26), rng.below(26));
    swapped
}

/// A board that is refused by 1 to 4.
fn not_accepted(board: &Board, rng: &mut Rng) -> Board {
    let mut refused = *board;
    let (entry, checkers) = rng.pick(&[(24, 16), (1, -16), (25, -1), (0, 1), (6, 127), (6, -128)]);
    refused[entry] = checkers;
    refused
}

/// The board after one legal step by one of the dice.
fn stepped_once(case: &RecoveryCase, rng: &mut Rng) -> Option<Board> {
    let die = rng.pick(&[case.dice.0, case.dice.1]);
    (1..=25).find_map(|from| plain::step(&case.old, from, die).ok())
}

/// An end of some roll.
fn of_another_roll(board: &Board, rng: &mut Rng) -> Option<Board> {
    let dice = rng.pick(&plain::all_dice());
    plain::play(board, dice).ok()?;
    Some(switched(&rng.pick(&judge::ends_of(board, dice))))
}

/// Cases with the same checkers taken from both boards, so that an end stays one.
pub fn fewer_checkers(case: &RecoveryCase) -> Vec<RecoveryCase> {
    let mut fewer = Vec::new();
    for i in 0..26 {
        let (old, end) = (case.old[i], case.end[i]);
        if old != 0 && old.signum() == end.signum() {
            let mut less = *case;
            less.old[i] -= old.signum();
            less.end[i] -= old.signum();
            fewer.push(less);
        }
    }
    fewer
}
