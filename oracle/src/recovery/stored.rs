//! A sample of answers as data, for a program that replays them where there is no Rust.
//!
//! A record is 64 bytes, and nothing stands between records:
//!
//! | bytes | what |
//! |---|---|
//! | 26 | the board given |
//! | 26 | the end given, before switching |
//! | 1, 1 | the dice given |
//! | 1 | the refusal number, 0 for none |
//! | 1 | the number of steps, 0 where recovery is refused |
//! | 4 × 2 | the steps, each a from and a to, and zeros after them |
//!
//! A row that is too short has no records: they are of the steps, however they are lent.

use super::{RecoveryCase, Roll, document, made};
use crate::boards::{kinds, sample};
use crate::difference::Difference;
use crate::plain;
use crate::rng::Rng;
use munchalep::{Board, MOST_STEPS};
use std::collections::{BTreeMap, HashSet};

type Record = [u8; 56 + 2 * MOST_STEPS];

/// Boards of each kind that are taken whatever they are, and those that are looked at.
const TAKEN: usize = 32;
const LOOKED_AT: usize = 400;

/// Ends of a board and a roll.
const ENDS: usize = 2;

/// One board in this many is asked with dice that are no roll, and with boards that are no end.
const WRONG: usize = 16;

/// Dice outside 1 to 6 that are a byte.
const NO_DICE: [usize; 5] = [0, 7, 8, 22, 255];

/// Answers of each sort, at least.
const OF_EACH: usize = 16;

/// The records of a seed's sample, on all of which the sides agree.
pub fn records(seed: u64) -> Result<Vec<u8>, Difference> {
    let mut records = Vec::new();
    for case in cases(seed) {
        records.push(record(&case)?);
    }
    let mut met = HashSet::new();
    records.retain(|&record| met.insert(record));
    assert_every_answer(&records);
    Ok(records.concat())
}

/// The document's cases; ends of boards of every kind, more of those whose answer is rare; and what
/// is no end or no roll.
fn cases(seed: u64) -> Vec<RecoveryCase> {
    let mut rng = Rng::new(seed, u64::MAX);
    let is_byte = |case: &RecoveryCase| case.dice.0 < 256 && case.dice.1 < 256;
    let in_room = |case: RecoveryCase| RecoveryCase { places: MOST_STEPS, ..case };
    let mut cases: Vec<_> = document::cases().into_iter().filter(is_byte).map(in_room).collect();
    for (old, dice, roll) in rolls(seed, &mut rng) {
        let ends = roll.ends.unwrap_or(vec![old]);
        for _ in 0..ENDS.min(ends.len()) {
            cases.push(RecoveryCase { old, end: rng.pick(&ends), dice, places: MOST_STEPS });
        }
        if rng.once_in(WRONG) {
            let case = RecoveryCase { old, end: rng.pick(&ends), dice, places: MOST_STEPS };
            let no_roll = (rng.pick(&NO_DICE), rng.between(0, 7));
            cases.push(RecoveryCase { dice: no_roll, ..case });
            let no_ends = made::no_ends(&case, &mut rng).into_iter();
            cases.extend(no_ends.map(|end| RecoveryCase { end, ..case }));
        }
    }
    cases
}

/// Boards of every kind, each with a roll, in either order of the dice.
fn rolls(seed: u64, rng: &mut Rng) -> Vec<(Board, (usize, usize), Roll)> {
    let (mut rolls, mut taken) = (Vec::new(), BTreeMap::<Result<usize, u8>, usize>::new());
    let mut dice = plain::all_dice().into_iter().cycle();
    for kind in 0..kinds().len() {
        for (i, board) in sample(seed, kind, LOOKED_AT).into_iter().enumerate() {
            let (larger, less) = dice.next().expect("they begin again");
            let dice = if rng.once_in(2) { (larger, less) } else { (less, larger) };
            let roll = Roll::judged(&board, dice);
            let same =
                taken.entry(roll.ends.as_ref().map(|_| roll.steps).map_err(|&n| n)).or_default();
            if i < TAKEN || *same < OF_EACH {
                *same += 1;
                rolls.push((board, dice, roll));
            }
        }
    }
    rolls
}

/// Every answer is there, and none is rare.
fn assert_every_answer(records: &[Record]) {
    let mut answers: BTreeMap<(u8, u8), usize> = BTreeMap::new();
    for record in records {
        *answers.entry((record[54], record[55])).or_default() += 1;
    }
    let met: Vec<_> = answers.keys().copied().collect();
    let steps = (0..=MOST_STEPS as u8).map(|steps| (0, steps));
    let refusals = [1, 2, 3, 4, 5, 6, 7, 12].map(|refusal| (refusal, 0));
    assert_eq!(met, steps.chain(refusals).collect::<Vec<_>>(), "an answer is missing");
    // One board alone is empty.
    let is_often =
        |(&(refusal, _), &records): (&(u8, u8), &usize)| records >= OF_EACH || refusal == 6;
    assert!(answers.iter().all(is_often), "an answer is rare: {answers:?}");
}

fn record(case: &RecoveryCase) -> Result<Record, Difference> {
    let answers = case.answers_beside(&Roll::of(&case.old, case.dice));
    if !answers.agree() {
        return Err(Difference::of(*case));
    }
    let answer = answers.decided();
    let mut record = [0; 56 + 2 * MOST_STEPS];
    record[..26].copy_from_slice(&case.old.map(|entry| entry as u8));
    record[26..52].copy_from_slice(&case.end.map(|entry| entry as u8));
    record[52] = case.dice.0 as u8;
    record[53] = case.dice.1 as u8;
    record[54] = answer.packed as u8;
    record[55] = answer.row.len() as u8;
    for (place, step) in record[56..].chunks_mut(2).zip(&answer.row) {
        place.copy_from_slice(&[step.from, step.to]);
    }
    Ok(record)
}
