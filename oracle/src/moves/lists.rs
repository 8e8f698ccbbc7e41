//! Whole lists, many in a short time: the same memory is lent again and again, and wildbg's list is
//! compared as bytes.

use super::{Call, MovesCase, ROOM, compare_limits, no_roll};
use crate::answer::PATTERN;
use crate::counts::{Counts, Entry};
use crate::difference::{Case, Difference};
use crate::judge::Judge;
use crate::plain;
use crate::rng::Rng;
use munchalep::{Board, raw};
use std::hint::black_box;

/// Bytes before and after a list that are looked at after each call.
const GUARD: usize = 67;

/// One board in this many has its limits tried, with one of its rolls.
const LIMITS: usize = 24;

/// Compares lists in memory of its own.
pub struct Lists {
    /// wildbg's list of the roll at hand; empty where it is refused.
    judged: Vec<u8>,
    /// Room for any list between guards, the pattern wherever no call is under way.
    lent: Vec<u8>,
}

impl Lists {
    pub fn new() -> Lists {
        let lent = vec![PATTERN as u8; GUARD + ROOM + GUARD];
        Lists { judged: Vec::new(), lent }
    }

    /// Compares the lists and counts of all 21 rolls of `board`, the dice in either order, and at
    /// times its limits. The board decides what is left to chance.
    pub fn compare(&mut self, board: &Board, counts: &mut Counts) -> Result<(), Difference> {
        let judge = Judge::of(board);
        let mut rng = Rng::of_board(board);
        let limits = rng.below(21 * LIMITS);
        for (roll, (large, small)) in plain::all_dice().into_iter().enumerate() {
            let dice = if rng.once_in(2) { (large, small) } else { (small, large) };
            self.compare_roll(&judge, board, dice, counts)?;
            if roll == limits {
                compare_limits(board, dice, counts)?;
                compare_limits(board, no_roll(&mut rng), counts)?;
            }
        }
        Ok(())
    }

    /// Compares the number of ends, the list in room for any and the list in as much as it takes.
    fn compare_roll(
        &mut self,
        judge: &Judge,
        board: &Board,
        dice: (usize, usize),
        counts: &mut Counts,
    ) -> Result<(), Difference> {
        self.judged.clear();
        let plain = plain::play(board, dice);
        let wildbg = judge.ends(dice);
        let is_judged = wildbg.is_some();
        // wildbg decides wherever a play is not refused.
        let judged = wildbg.unwrap_or_else(|| plain.map(|()| Vec::new()));
        let judges_agree = judged.as_ref().err() == plain.as_ref().err();
        let packed = match judged {
            Err(refusal) => u64::from(refusal),
            Ok(ends) => {
                let bytes = |end| Board::from(end).map(|entry| entry as u8);
                ends.iter().for_each(|&end| self.judged.extend_from_slice(&bytes(end)));
                (ends.len() as u64) << 8
            }
        };
        let need = self.judged.len();
        let agree = judges_agree
            && raw::munchalep_count(board, dice.0 as u64, dice.1 as u64) == packed
            && self.listed(board, dice, ROOM, packed)
            && self.listed(board, dice, need, packed);
        if !agree {
            return Err(difference(board, dice, need));
        }
        counts.add(Entry::Count, packed, is_judged);
        counts.add(Entry::List, packed, is_judged);
        counts.add(Entry::List, packed, is_judged);
        counts.add_roll(packed >> 8);
        Ok(())
    }

    /// Whether the list in `length` bytes is wildbg's and nothing beside it changed, as far as the
    /// guards tell; a list's limits are tried with a look at every byte.
    fn listed(&mut self, board: &Board, dice: (usize, usize), length: usize, packed: u64) -> bool {
        let list = &mut self.lent[GUARD..GUARD + length];
        let answer = raw::munchalep_list(board, dice.0 as u64, dice.1 as u64, list);
        // The compiler may take for granted that only the list changed; it is to look.
        let (before, list) = black_box(&mut self.lent).split_at_mut(GUARD);
        let (listed, after) = list.split_at_mut(self.judged.len());
        let agree = answer == packed
            && listed == self.judged
            && *before == [PATTERN as u8; GUARD]
            && after[..GUARD] == [PATTERN as u8; GUARD];
        listed.fill(PATTERN as u8);
        agree
    }
}

/// The difference of a roll on which the sides do not agree.
fn difference(board: &Board, dice: (usize, usize), need: usize) -> Difference {
    let cases = [Call::Count, Call::list(ROOM), Call::list(need)].map(|call| MovesCase {
        board: *board,
        dice,
        call,
    });
    let differs = |case: &MovesCase| !case.answers().agree();
    match cases.into_iter().find(differs) {
        Some(case) => Difference::of(case),
        None => Difference(format!("DIFFERENCE that does not come again: {board:?}, {dice:?}")),
    }
}
