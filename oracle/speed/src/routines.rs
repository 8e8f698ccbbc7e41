//! What is measured. Each routine goes through all turns and answers how many ends it found.

use crate::corpus::Turn;
use munchalep::{END_BYTES, MOST_ENDS};
use std::hint::black_box;

/// The routines by name, wildbg's first.
pub const NAMES: [&str; 4] = ["wildbg", "count", "list, room for all", "list, little room"];

/// Ends that a list with little room holds: enough for every turn here, and so few that the library
/// counts before it writes.
const LITTLE_ROOM: usize = 2_500;

/// The routines, with lists that are lent again and again and never cleared.
pub struct Routines {
    all: Vec<u8>,
    little: Vec<u8>,
}

impl Routines {
    pub fn new() -> Routines {
        let list = |ends: usize| vec![0; ends * END_BYTES];
        Routines { all: list(MOST_ENDS), little: list(LITTLE_ROOM) }
    }

    /// Runs the routine with a number.
    pub fn run(&mut self, routine: usize, turns: &[Turn]) -> usize {
        match routine {
            0 => sum(turns, |turn| turn.ends().len()),
            1 => sum(turns, count),
            2 => sum(turns, |turn| list(turn, &mut self.all)),
            _ => sum(turns, |turn| list(turn, &mut self.little)),
        }
    }

    /// The ends of all turns.
    pub fn ends(&mut self, turns: &[Turn]) -> usize {
        self.run(0, turns)
    }

    /// The ends of the turn that has the most.
    pub fn most_ends(&self, turns: &[Turn]) -> usize {
        turns.iter().map(count).max().unwrap_or(0)
    }
}

/// The number of ends of a turn.
pub fn count(turn: &Turn) -> usize {
    let (die1, die2) = turn.dice;
    munchalep::count(&turn.board, die1, die2).expect("an unfinished board and a roll")
}

fn list(turn: &Turn, list: &mut [u8]) -> usize {
    let (die1, die2) = turn.dice;
    munchalep::list(&turn.board, die1, die2, list).expect("room for the ends")
}

fn sum(turns: &[Turn], mut ends: impl FnMut(&Turn) -> usize) -> usize {
    turns.iter().map(|turn| black_box(ends(black_box(turn)))).sum()
}
