//! Boards and keys with the library's answers, to be held to GNU Backgammon by
//! `oracle/gnubg/run-keys`. They are records like those of [`super::stored`], on all of which the
//! sides agree.

use super::{document, made, stored};
use crate::boards::{kinds, sample};
use crate::difference::Difference;
use crate::plain;
use crate::rng::Rng;
use munchalep::Board;
use std::collections::HashSet;

/// Boards of each kind.
const OF_KIND: usize = 12_000;

/// One board in this many has each of its key's bits turned round.
const DAMAGED: usize = 200;

/// The records of refused keys of the document, of accepted boards, and of keys made from them.
pub fn records(seed: u64) -> Result<Vec<u8>, Difference> {
    let mut rng = Rng::new(seed, u64::MAX);
    let mut met = HashSet::new();
    let mut records = Vec::new();
    for (key, _) in document::refused() {
        records.push(stored::of_key(&key)?);
    }
    for board in boards(seed) {
        if plain::check(&board).is_err() || !met.insert(board) {
            continue;
        }
        records.push(stored::of_board(&board)?);
        let mut keys = made::of_board(&board, &mut rng);
        if rng.once_in(DAMAGED) {
            keys.extend(made::damages(&keys[0]));
        }
        for key in keys {
            records.push(stored::of_key(&key)?);
        }
    }
    Ok(records.concat())
}

/// Boards of every kind, and boards about which GNU Backgammon has a rule of its own.
fn boards(seed: u64) -> Vec<Board> {
    let some = (0..kinds().len()).flat_map(|kind| sample(seed, kind, OF_KIND));
    both_barred().into_iter().chain(some).collect()
}

/// Both sides on the bar, and on every point at home with two checkers, or on one of them with one.
fn both_barred() -> Vec<Board> {
    let sides: Vec<Board> =
        (0..=6).flat_map(|single| [25, 12, 6].map(|last| one_side(single, last))).collect();
    let mut boards = Vec::new();
    for x in &sides {
        for o in sides.iter().map(|side| plain::switch(side).expect("at most 15 checkers")) {
            boards.push(std::array::from_fn(|i| x[i] + o[i]));
        }
    }
    boards
}

/// x on the bar, with two on each point at home but one on `single`, and one more on `last`.
fn one_side(single: usize, last: usize) -> Board {
    let mut board = [0; 26];
    board[1..=6].fill(2);
    if single > 0 {
        board[single] = 1;
    }
    board[25] = 1;
    board[last] += 1;
    board
}
