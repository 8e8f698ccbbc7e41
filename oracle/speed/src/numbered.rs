//! The end of each turn that has a number.

use crate::corpus::Played;
use engine::position::Position;
use munchalep::Board;
use std::hint::black_box;

/// The routines by name, wildbg's first.
pub const NAMES: [&str; 2] = ["wildbg", "munchalep"];

/// Runs the routine with a number. Answers how many ends it gave.
pub fn run(routine: usize, played: &[Played]) -> usize {
    for played in played {
        match routine {
            0 => _ = black_box(wildbg(black_box(played))),
            _ => _ = black_box(munchalep(black_box(played))),
        }
    }
    played.len()
}

/// Whether both give the same board of every turn.
pub fn agree(played: &[Played]) -> bool {
    played.iter().all(|played| Board::from(wildbg(played)) == munchalep(played))
}

/// wildbg has all ends or none.
fn wildbg(played: &Played) -> Position {
    played.turn.ends()[played.number]
}

fn munchalep(played: &Played) -> Board {
    let (die1, die2) = played.turn.dice;
    munchalep::end(&played.turn.board, die1, die2, played.number).expect("a number of an end")
}
