//! Document 01's words as plain code, written from them and not from wildbg: the second judge
//! inside wildbg's domain, and the only one outside it. A refusal is an `Err` with its number.

pub mod card;
mod ends;
mod inputs;
pub mod key;
mod recovery;

pub use ends::{ends, ends_of, play, started};
pub use inputs::{Net, inputs};
pub use key::{board_of_key, key};
pub use recovery::{is_play, some_play, steps_of_roll};

use crate::boards::board;
use munchalep::Board;
use std::cmp::Ordering::{Equal, Greater, Less};
use std::ops::RangeInclusive;

/// Checkers of a side.
const CHECKERS: i32 = 15;
const X_BAR: usize = 25;
const O_BAR: usize = 0;

/// "The start board has x 24:2, 13:5, 8:3, 6:5 and o 1:2, 12:5, 17:3, 19:5."
pub fn start() -> Board {
    let x = [(24, 2), (13, 5), (8, 3), (6, 5)];
    let o = [(1, -2), (12, -5), (17, -3), (19, -5)];
    board(&[x, o].concat())
}

/// "The board": the refusals 1 to 4, in this order, sums taken as whole numbers.
pub fn check(board: &Board) -> Result<(), u8> {
    if x_checkers(board) > CHECKERS {
        Err(1)
    } else if o_checkers(board) > CHECKERS {
        Err(2)
    } else if board[X_BAR] < 0 {
        Err(3)
    } else if board[O_BAR] > 0 {
        Err(4)
    } else {
        Ok(())
    }
}

/// "Side switch: entry 25 - i of the new board is minus entry i of the old."
pub fn switch(board: &Board) -> Result<Board, u8> {
    check(board)?;
    let mut switched = [0; 26];
    for i in 0..=25 {
        switched[25 - i] = -board[i];
    }
    Ok(switched)
}

/// "Steps and ends": the board after a single step, unswitched. Order of refusals: 1 to 4, 7, 8, 9.
pub fn step(board: &Board, from: usize, die: usize) -> Result<Board, u8> {
    check(board)?;
    if !(1..=6).contains(&die) {
        Err(7)
    } else if from > 25 {
        Err(8)
    } else if !is_legal(board, from, die) {
        Err(9)
    } else {
        Ok(stepped(board, from, die))
    }
}

/// "A step from p by die d is legal when ..", on an accepted board.
fn is_legal(board: &Board, p: usize, d: usize) -> bool {
    has_x(board, p..=p)
        && (p == X_BAR) == has_x(board, X_BAR..=X_BAR)
        && match p.cmp(&d) {
            Greater => board[p - d] >= -1,
            Equal => !has_x(board, 7..=24),
            Less => !has_x(board, p + 1..=24),
        }
}

/// "It takes one checker from p ..", where the step is legal.
fn stepped(board: &Board, p: usize, d: usize) -> Board {
    let mut after = *board;
    after[p] -= 1;
    if p > d {
        if after[p - d] == -1 {
            after[p - d] = 0;
            after[O_BAR] -= 1;
        }
        after[p - d] += 1;
    }
    after
}

/// "Result and phase": its number. Order of refusals: 1 to 4, 6.
pub fn result(board: &Board) -> Result<u8, u8> {
    check(board)?;
    let (x_off, o_off) = (CHECKERS - x_checkers(board), CHECKERS - o_checkers(board));
    match (x_off == CHECKERS, o_off == CHECKERS) {
        (true, true) => Err(6),
        (true, false) if o_off > 0 => Ok(2),
        (true, false) if has_o(board, 0..=6) => Ok(4),
        (true, false) => Ok(3),
        (false, true) if x_off > 0 => Ok(5),
        (false, true) if has_x(board, 19..=25) => Ok(7),
        (false, true) => Ok(6),
        (false, false) if is_contact(board) => Ok(0),
        (false, false) => Ok(1),
    }
}

/// "The highest entry holding x exceeds the lowest holding o": x stands above some o.
fn is_contact(board: &Board) -> bool {
    (1..=25).any(|i| has_x(board, i..=i) && has_o(board, 0..=i - 1))
}

/// Checkers of x, both bars counted.
fn x_checkers(board: &Board) -> i32 {
    board.iter().map(|&entry| i32::from(entry).max(0)).sum()
}

/// Checkers of o, both bars counted.
fn o_checkers(board: &Board) -> i32 {
    board.iter().map(|&entry| (-i32::from(entry)).max(0)).sum()
}

fn has_x(board: &Board, entries: RangeInclusive<usize>) -> bool {
    board[entries].iter().any(|&entry| entry > 0)
}

fn has_o(board: &Board, entries: RangeInclusive<usize>) -> bool {
    board[entries].iter().any(|&entry| entry < 0)
}

/// "Dice byte: larger × 16 + smaller." Refuses 7.
pub fn dice_byte(dice: (usize, usize)) -> Result<u8, u8> {
    let (small, large) = (dice.0.min(dice.1), dice.0.max(dice.1));
    if small < 1 || large > 6 {
        return Err(7);
    }
    Ok((large * 16 + small) as u8)
}

/// The dice of a dice byte, the larger one first.
pub fn dice_of(byte: u8) -> (usize, usize) {
    (usize::from(byte / 16), usize::from(byte % 16))
}

/// The dice of the 21 rolls, in their order.
pub fn all_dice() -> Vec<(usize, usize)> {
    rolls().into_iter().map(|(_, byte)| dice_of(byte)).collect()
}

/// "21 rolls: for each small die, its double (weight 1), then its mixed rolls upward (weight 2)":
/// weight and dice byte.
pub fn rolls() -> Vec<(u32, u8)> {
    let mut rolls = Vec::new();
    for small in 1..=6u8 {
        rolls.push((1, small * 16 + small));
        rolls.extend((small + 1..=6).map(|large| (2, large * 16 + small)));
    }
    rolls
}

/// "The table of 441 pairs of rolls .. entry 21i + j, weight the product": weight and dice bytes.
pub fn pairs() -> Vec<(u32, u8, u8)> {
    let rolls = rolls();
    let pair = |n: usize| {
        let (first, second) = (rolls[n / 21], rolls[n % 21]);
        (first.0 * second.0, first.1, second.1)
    };
    (0..441).map(pair).collect()
}
