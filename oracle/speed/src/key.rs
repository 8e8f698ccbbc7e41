//! The keys of boards, written and read.

use crate::corpus::judged;
use engine::position::Position;
use munchalep::{Board, Key};
use std::hint::black_box;

/// The routines by name, wildbg's first. It judges neither what it writes nor what it reads; judged
/// are the 26 entries, before they are written or after they were read.
pub const NAMES: [&str; 3] = ["wildbg", "wildbg, judged", "munchalep"];

/// Runs the routine with a number. Answers how many keys it wrote or read.
type Way = fn(usize, &[Keyed]) -> usize;

/// Both ways, by name.
pub const WAYS: [(&str, Way); 2] = [("written", write), ("read", read)];

/// A board with its key, for either side to measure.
pub struct Keyed {
    position: Position,
    board: Board,
    key: Key,
}

impl Keyed {
    pub fn new(position: Position) -> Keyed {
        Keyed { position, board: position.into(), key: position.key() }
    }

    /// Whether the library writes the same key and reads the same board.
    pub fn agrees(&self) -> bool {
        munchalep::key(&self.board) == Ok(self.key)
            && munchalep::board_of_key(&self.key) == Ok(self.board)
            && Position::of_key(self.key) == self.position
    }
}

fn write(routine: usize, boards: &[Keyed]) -> usize {
    for keyed in boards {
        black_box(match routine {
            0 => black_box(&keyed.position).key(),
            1 => judged(black_box(&keyed.board)).key(),
            _ => munchalep::key(black_box(&keyed.board)).expect("a board of a game"),
        });
    }
    boards.len()
}

fn read(routine: usize, boards: &[Keyed]) -> usize {
    for Keyed { key, .. } in boards {
        match routine {
            0 => _ = black_box(Position::of_key(*black_box(key))),
            1 => _ = black_box(judged(&Position::of_key(*black_box(key)).into())),
            _ => _ = black_box(munchalep::board_of_key(black_box(key)).expect("a board's key")),
        }
    }
    boards.len()
}
