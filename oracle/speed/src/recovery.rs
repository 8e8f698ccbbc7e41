//! The steps to an end of each turn.

use crate::corpus::Played;
use logic::bg_move::{BgMove, MoveDetail};
use munchalep::{MOST_STEPS, Step};
use std::hint::black_box;

/// The routines by name, wildbg's first.
pub const NAMES: [&str; 2] = ["wildbg", "munchalep"];

/// Runs the routine with a number. Answers how many steps it found.
pub fn run(routine: usize, played: &[Played]) -> usize {
    match routine {
        0 => played.iter().map(|played| black_box(wildbg(black_box(played))).len()).sum(),
        _ => played.iter().map(|played| black_box(munchalep(black_box(played))).1).sum(),
    }
}

fn wildbg(played: &Played) -> Vec<MoveDetail> {
    BgMove::new(&played.turn.position, &played.position, &played.turn.roll).into_details()
}

fn munchalep(played: &Played) -> ([Step; MOST_STEPS], usize) {
    let (mut row, (die1, die2)) = ([Step::default(); MOST_STEPS], played.turn.dice);
    let steps = munchalep::recover(&played.turn.board, &played.board, die1, die2, &mut row);
    (row, steps.expect("a legal end and room for its steps"))
}
