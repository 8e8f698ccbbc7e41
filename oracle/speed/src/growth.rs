//! What a call takes as the number of ends grows.

use crate::corpus::{self, Played, Turn};
use crate::routines::{self, Routines};
use crate::{numbered, recovery};
use std::collections::BTreeMap;

/// The routines by name, wildbg's first.
pub const NAMES: [&str; 5] = ["wildbg, list", "count", "list, room for all", "end", "recover"];

/// Turns of a group, at most.
const TURNS: usize = 1_000;

/// Turns with at least `fewest` ends and fewer than twice as many.
pub struct Group {
    pub fewest: usize,
    pub turns: Vec<Turn>,
    played: Vec<Played>,
}

/// The first turns of each group, by the number of ends. A seed decides the ends that are asked for
/// by number, and those whose steps are.
pub fn groups(turns: &[Turn], seed: u64) -> Vec<Group> {
    let mut groups = BTreeMap::<usize, Vec<Turn>>::new();
    for turn in turns {
        let group = groups.entry(1 << routines::count(turn).ilog2()).or_default();
        if group.len() < TURNS {
            group.push(*turn);
        }
    }
    let group = |(fewest, turns): (usize, Vec<Turn>)| Group {
        fewest,
        played: corpus::played(&turns, seed),
        turns,
    };
    groups.into_iter().map(group).collect()
}

impl Group {
    /// Runs the routine with a number. Answers how many turns it took.
    pub fn run(&self, routine: usize, routines: &mut Routines) -> usize {
        match routine {
            0..=2 => _ = routines.run(routine, &self.turns),
            3 => _ = numbered::run(1, &self.played),
            _ => _ = recovery::run(1, &self.played),
        }
        self.turns.len()
    }

    /// Whether both sides find as many ends, the same ends by number, and as many steps.
    pub fn agrees(&self, routines: &mut Routines) -> bool {
        let ends = routines.ends(&self.turns);
        (1..=2).all(|routine| routines.run(routine, &self.turns) == ends)
            && numbered::agree(&self.played)
            && recovery::run(0, &self.played) == recovery::run(1, &self.played)
    }
}
