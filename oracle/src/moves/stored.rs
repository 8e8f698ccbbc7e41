//! A sample of answers as data, for a program that replays them where there is no Rust.
//!
//! A record is 100 bytes, numbers low byte first, and nothing stands between records:
//!
//! | bytes | what |
//! |---|---|
//! | 26 | the board given |
//! | 8, 8 | the dice given |
//! | 8 | the packed answer of count |
//! | 8 | the checksum of the whole list's bytes, or 0 where it is refused |
//! | 8 | an end number |
//! | 8 | the packed answer of end for that number |
//! | 26 | `out` afterwards: the end, or 26 times hex 55 where it is refused |
//!
//! The checksum starts at 1, and each byte makes it (checksum × 16777619 + byte) mod 4294967291: no
//! product leaves 64 bits, so that it needs no arithmetic that wraps.

use super::answer::Answer;
use super::{Call, Ends, MovesCase, NO_ENDS, ROOM, document, no_roll};
use crate::answer::PATTERN;
use crate::boards::{kinds, sample};
use crate::difference::{Answers, Case, Difference};
use crate::plain;
use crate::rng::Rng;
use munchalep::{Board, END_BYTES};
use std::collections::{BTreeSet, HashSet};
use std::fmt::Write;

/// Boards of each kind, each with two rolls; and of them those that get dice outside 1 to 6 too.
const OF_KIND: usize = 105;
const WITHOUT_ROLL: usize = 12;

/// The records of a seed's sample, on all of which the sides agree.
pub fn records(seed: u64) -> Result<Vec<u8>, Difference> {
    let mut rng = Rng::new(seed, u64::MAX);
    let (mut records, mut refusals) = (Vec::new(), BTreeSet::new());
    for (board, dice) in inputs(seed, &mut rng) {
        let ends = Ends::of(&board, dice);
        let number = some_number(ends.number(), &mut rng);
        let [count, list, end] = [Call::Count, Call::list(ROOM), Call::end(number)].map(|call| {
            let case = MovesCase { board, dice, call };
            agreed(case, case.answers_beside(&ends))
        });
        let (count, list, end) = (count?, list?, end?);
        refusals.extend([count.packed as u8, end.packed as u8]);
        records.extend(board.map(|entry| entry as u8));
        records.extend([dice.0, dice.1].map(|die| (die as u64).to_le_bytes()).as_flattened());
        records.extend(count.packed.to_le_bytes());
        records.extend(checksum(&list).to_le_bytes());
        records.extend((number as u64).to_le_bytes());
        records.extend(end.packed.to_le_bytes());
        records.extend(if end.packed == 0 { &end.written } else { &[PATTERN as u8; 26][..] });
    }
    assert_eq!(refusals, BTreeSet::from([0, 1, 2, 3, 4, 5, 6, 7, 11]), "an answer is missing");
    Ok(records)
}

/// The whole lists of the same sample where a play is not refused, as text for a program that knows
/// other rules of play (oracle/gnubg): a line has the board, the dice and the ends, boards as 52
/// digits each, in hex.
pub fn lists(seed: u64) -> Result<Vec<u8>, Difference> {
    let mut text = String::new();
    for (board, dice) in inputs(seed, &mut Rng::new(seed, u64::MAX)) {
        let case = MovesCase { board, dice, call: Call::list(ROOM) };
        let list = agreed(case, case.answers())?;
        if list.packed as u8 == 0 {
            let board = hex(&board.map(|entry| entry as u8));
            let ends: Vec<String> = list.written.chunks(END_BYTES).map(hex).collect();
            text += &format!("{board} {} {} {}\n", dice.0, dice.1, ends.join(" "));
        }
    }
    Ok(text.into_bytes())
}

fn hex(bytes: &[u8]) -> String {
    bytes.iter().fold(String::new(), |mut text, byte| {
        write!(text, "{byte:02x}").expect("a string takes all");
        text
    })
}

/// What the sides answer to a case, if it is the same.
fn agreed(case: MovesCase, answers: Answers<Answer>) -> Result<Answer, Difference> {
    if answers.agree() { Ok(answers.decided()) } else { Err(Difference::of(case)) }
}

/// The document's boards, and some boards of every kind, each roll as often in either order.
fn inputs(seed: u64, rng: &mut Rng) -> Vec<(Board, (usize, usize))> {
    let mut inputs = document::rolls();
    let mut rolls = either_order().into_iter().cycle();
    for kind in 0..kinds().len() {
        for (i, board) in sample(seed, kind, OF_KIND).into_iter().enumerate() {
            inputs.extend(rolls.by_ref().take(2).map(|dice| (board, dice)));
            if i < WITHOUT_ROLL {
                inputs.push((board, no_roll(rng)));
            }
        }
    }
    let mut met = HashSet::new();
    inputs.retain(|&input| met.insert(input));
    inputs
}

/// The dice of the 21 rolls, in the document's order, and then turned round.
fn either_order() -> Vec<(usize, usize)> {
    let rolls = plain::all_dice();
    rolls.iter().copied().chain(rolls.iter().map(|&(large, small)| (small, large))).collect()
}

/// The number of an end, the last one among them more often, and at times none.
fn some_number(ends: usize, rng: &mut Rng) -> usize {
    match rng.below(8) {
        0 => ends,
        1 => rng.pick(&NO_ENDS),
        2 => ends.saturating_sub(1),
        _ => rng.below(ends.max(1)),
    }
}

fn checksum(list: &Answer) -> u64 {
    if list.packed as u8 != 0 {
        return 0;
    }
    list.written.iter().fold(1, |sum, &byte| (sum * 16_777_619 + u64::from(byte)) % 4_294_967_291)
}
