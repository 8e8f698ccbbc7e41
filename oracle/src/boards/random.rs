//! Random boards of many kinds.

use crate::plain;
use crate::rng::Rng;
use munchalep::Board;
use std::ops::RangeInclusive;

/// Makes one board.
type Maker = fn(&mut Rng) -> Board;

/// The kinds, by name.
pub const KINDS: [(&str, Maker); 15] = [
    ("from a game", from_a_game),
    ("scattered", scattered),
    ("all on the board", all_on_the_board),
    ("bar", bar),
    ("blots and blocks", blots_and_blocks),
    ("race", race),
    ("bear-off", bear_off),
    ("few checkers", few_checkers),
    ("near the finish", near_the_finish),
    ("finished", finished),
    ("damaged: about fifteen", about_fifteen),
    ("damaged: bars", wrong_bars),
    ("damaged: sums wrap", sums_wrap),
    ("damaged: any bytes", any_bytes),
    ("many ends", many_ends),
];

const POINTS: RangeInclusive<usize> = 1..=24;
const X_ENTRIES: RangeInclusive<usize> = 1..=25;
const O_ENTRIES: RangeInclusive<usize> = 0..=24;
const HOME: RangeInclusive<usize> = 1..=6;

/// The signs of the two sides.
const X: i8 = 1;
const O: i8 = -1;

/// Puts `checkers` of a side on entries that the other side does not hold, on few of them or many.
fn put(board: &mut Board, rng: &mut Rng, side: i8, checkers: usize, on: RangeInclusive<usize>) {
    let free: Vec<usize> = on.filter(|&i| board[i].signum() != -side).collect();
    if free.is_empty() {
        return;
    }
    let stacks: Vec<usize> = (0..rng.between(1, 12)).map(|_| rng.pick(&free)).collect();
    for _ in 0..checkers {
        board[rng.pick(&stacks)] += side;
    }
}

/// A position of a game from the start board, at most its last, both sides stepping at random.
fn from_a_game(rng: &mut Rng) -> Board {
    let mut board = plain::start();
    for _ in 0..rng.below(100) {
        for _ in 0..2 {
            board = some_step(&board, rng).unwrap_or(board);
        }
        board = plain::switch(&board).expect("a step leads to an accepted board");
        if plain::result(&board).is_ok_and(|number| number > 1) {
            break;
        }
    }
    board
}

/// The board after a legal step by a random die: from a random point, else from the next lower
/// one that has one, else from one above.
fn some_step(board: &Board, rng: &mut Rng) -> Option<Board> {
    let (highest, die) = (rng.between(1, 25), rng.between(1, 6));
    let mut points = (1..=highest).rev().chain(highest + 1..=25);
    points.find_map(|from| plain::step(board, from, die).ok())
}

fn scattered(rng: &mut Rng) -> Board {
    let mut board = [0; 26];
    let (x, o) = (rng.between(1, 15), rng.between(1, 15));
    put(&mut board, rng, X, x, POINTS);
    put(&mut board, rng, O, o, POINTS);
    board
}

fn all_on_the_board(rng: &mut Rng) -> Board {
    let mut board = [0; 26];
    put(&mut board, rng, X, 15, X_ENTRIES);
    put(&mut board, rng, O, 15, O_ENTRIES);
    board
}

fn bar(rng: &mut Rng) -> Board {
    let mut board = [0; 26];
    board[25] = rng.between(1, 5) as i8;
    board[0] = -(rng.below(5) as i8);
    let (x, o) = (rng.between(0, 10), rng.between(0, 11));
    put(&mut board, rng, X, x, POINTS);
    // Often on the points where x enters.
    let entries = if rng.once_in(2) { 19..=24 } else { POINTS };
    put(&mut board, rng, O, o, entries);
    board
}

fn blots_and_blocks(rng: &mut Rng) -> Board {
    let mut board = [0; 26];
    let (mut x, mut o) = (0, 0);
    for i in POINTS {
        let checkers = rng.pick(&[-3, -2, -2, -1, -1, 0, 0, 0, 0, 1, 1, 2, 2, 3]);
        let (x_more, o_more) = (x + checkers.max(0), o - checkers.min(0));
        if x_more <= 15 && o_more <= 15 {
            (x, o, board[i]) = (x_more, o_more, checkers);
        }
    }
    board
}

fn race(rng: &mut Rng) -> Board {
    let mut board = [0; 26];
    let highest_x = rng.between(1, 23);
    let (x, o) = (rng.between(1, 15), rng.between(1, 15));
    put(&mut board, rng, X, x, 1..=highest_x);
    put(&mut board, rng, O, o, highest_x + 1..=24);
    board
}

/// x at home, at times with a straggler; o anywhere.
fn bear_off(rng: &mut Rng) -> Board {
    let mut board = [0; 26];
    let (x, o) = (rng.between(1, 14), rng.between(1, 15));
    put(&mut board, rng, X, x, HOME);
    put(&mut board, rng, O, o, O_ENTRIES);
    if rng.once_in(4) {
        put(&mut board, rng, X, 1, 7..=25);
    }
    board
}

fn few_checkers(rng: &mut Rng) -> Board {
    let mut board = [0; 26];
    let (x, o) = (rng.between(1, 4), rng.between(1, 4));
    put(&mut board, rng, X, x, X_ENTRIES);
    put(&mut board, rng, O, o, O_ENTRIES);
    board
}

/// One side has one or two checkers left, at home; the other has all, or some.
fn near_the_finish(rng: &mut Rng) -> Board {
    let mut board = [0; 26];
    let x = rng.between(1, 2);
    let o = if rng.once_in(2) { 15 } else { rng.between(1, 14) };
    put(&mut board, rng, X, x, HOME);
    put(&mut board, rng, O, o, O_ENTRIES);
    either_side(&board, rng)
}

/// One side has all off; the other has some off, or none, and then often none far behind.
fn finished(rng: &mut Rng) -> Board {
    let mut board = [0; 26];
    let o = if rng.once_in(3) { rng.between(1, 14) } else { 15 };
    let lowest = rng.pick(&[0, 0, 6, 7, 7]);
    put(&mut board, rng, O, o, lowest..=24);
    either_side(&board, rng)
}

/// An accepted board, or the same seen from the other side.
fn either_side(board: &Board, rng: &mut Rng) -> Board {
    if rng.once_in(2) { plain::switch(board).expect("the board is accepted") } else { *board }
}

/// 14 to 17 checkers of each side.
fn about_fifteen(rng: &mut Rng) -> Board {
    let mut board = [0; 26];
    let (x, o) = (rng.between(14, 17), rng.between(14, 17));
    put(&mut board, rng, X, x, X_ENTRIES);
    put(&mut board, rng, O, o, O_ENTRIES);
    board
}

/// x on o's bar, o on x's bar, or both.
fn wrong_bars(rng: &mut Rng) -> Board {
    let mut board = scattered(rng);
    let which = rng.below(3);
    if which != 0 {
        board[0] = rng.pick(&[1, 1, 1, 2, 15, 16, 127]);
    }
    if which != 1 {
        board[25] = rng.pick(&[-1, -1, -1, -2, -15, -16, -128]);
    }
    board
}

/// A board whose sums, kept in eight bits, would be legal ones or nearly, and are not.
fn sums_wrap(rng: &mut Rng) -> Board {
    let mut board = [0; 26];
    let whole = [0, 128, 256, 512];
    let (x, o) = (rng.pick(&whole[1..]) + rng.below(18), rng.pick(&whole) + rng.below(18));
    pile(&mut board, rng, X, x, 13..=25);
    pile(&mut board, rng, O, o, 0..=12);
    if rng.once_in(2) { board.map(|entry| -entry) } else { board }
}

/// Adds `checkers` of a side to entries, each with room for 127 of them, in random parts.
fn pile(board: &mut Board, rng: &mut Rng, side: i8, checkers: usize, on: RangeInclusive<usize>) {
    let on: Vec<usize> = on.collect();
    let mut left = checkers;
    while left > 0 {
        let i = rng.pick(&on);
        let room = 127 - usize::from(board[i].unsigned_abs());
        let part = rng.between(1, left).min(room);
        board[i] += side * part as i8;
        left -= part;
    }
}

/// Any 26 bytes, or any few bytes among zeros.
fn any_bytes(rng: &mut Rng) -> Board {
    let zeros = rng.pick(&[0, 0, 2, 8, 24]);
    std::array::from_fn(|_| {
        let byte = rng.next() as i8;
        if rng.below(26) < zeros { 0 } else { byte }
    })
}

/// x on many points and o on few, so that a roll has many ends.
fn many_ends(rng: &mut Rng) -> Board {
    let mut board = [0; 26];
    for _ in 0..rng.between(10, 15) {
        let free: Vec<usize> = POINTS.filter(|&i| board[i] == 0).collect();
        board[rng.pick(&free)] = X;
    }
    let o = rng.between(1, 4);
    put(&mut board, rng, O, o, O_ENTRIES);
    board
}
