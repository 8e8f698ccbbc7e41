//! A sample of answers as data, for a program that replays them where there is no Rust.
//!
//! A record is 77 bytes, numbers low byte first, and nothing stands between records:
//!
//! | bytes | what |
//! |---|---|
//! | 1 | the call: 0 check, 1 switch, 2 step, 3 result |
//! | 8, 8 | from and die, 0 where the call is no step |
//! | 26 | the board given |
//! | 26 | `out` afterwards: the board answered, or 26 times hex 55 where there is none |
//! | 8 | the packed answer |

use super::{Call, HUGE_DIE, HUGE_FROM, PositionCase, document, steps};
use crate::answer::{Answer, PATTERN};
use crate::boards::{kinds, sample};
use crate::difference::{Case, Difference};
use crate::rng::Rng;
use munchalep::Board;
use std::collections::{HashMap, HashSet};

/// Boards of each kind that are taken whatever they are, and those that are looked at.
const TAKEN: usize = 9;
const LOOKED_AT: usize = 200;

/// Boards taken of each result and each refusal of a board, at least.
const OF_EACH: usize = 16;

/// The records of a seed's sample, on all of which the sides agree.
pub fn records(seed: u64) -> Result<Vec<u8>, Difference> {
    let mut records = Vec::new();
    for case in cases(seed) {
        let answers = case.answers();
        if !answers.agree() {
            return Err(Difference::of(case));
        }
        records.extend(record(&case, &answers.decided()));
    }
    Ok(records)
}

/// The document's own cases, and some calls of some boards of every kind.
fn cases(seed: u64) -> Vec<PositionCase> {
    let mut rng = Rng::new(seed, u64::MAX);
    let mut cases = document::cases();
    for board in some_boards(seed) {
        let calls = some_calls(&board, &mut rng).into_iter();
        cases.extend(calls.map(|call| PositionCase { board, call }));
    }
    let mut met = HashSet::new();
    cases.retain(|&case| met.insert(case));
    cases
}

/// Boards of every kind, and more of those whose result or refusal is rare.
fn some_boards(seed: u64) -> Vec<Board> {
    let mut boards: Vec<Board> = Vec::new();
    let mut taken: HashMap<u64, usize> = HashMap::new();
    for kind in 0..kinds().len() {
        for (i, board) in sample(seed, kind, LOOKED_AT).into_iter().enumerate() {
            let answer = PositionCase { board, call: Call::Result }.plain().packed;
            let same = taken.entry(answer).or_default();
            if (i < TAKEN || *same < OF_EACH) && !boards.contains(&board) {
                *same += 1;
                boards.push(board);
            }
        }
    }
    for answer in (1..=4).chain((0..8).map(|result| result << 8)) {
        assert!(taken.get(&answer) >= Some(&OF_EACH), "answer {answer} is too rare");
    }
    boards
}

/// Every call but the steps, and of the steps some that are legal, some more from x's checkers,
/// some from anywhere, and some beyond the limits.
fn some_calls(board: &Board, rng: &mut Rng) -> Vec<Call> {
    let points: Vec<usize> = (0..=25).collect();
    let held: Vec<usize> = points.iter().copied().filter(|&i| board[i] > 0).collect();
    let dice = [1, 2, 3, 4, 5, 6];
    let no_points = [&[26, 27], &HUGE_FROM[..]].concat();
    let no_dice = [&[0, 7, 8], &HUGE_DIE[..]].concat();

    let of_x = steps(&held, &dice).into_iter();
    let (legal, not_legal): (Vec<_>, Vec<_>) = of_x.partition(|&call| is_legal(board, call));
    let mut calls = vec![Call::Check, Call::Switch, Call::Result];
    calls.extend(some(3, &legal, rng));
    calls.extend(some(1, &not_legal, rng));
    calls.extend(some(1, &steps(&points, &dice), rng));
    calls.extend(some(1, &steps(&points, &no_dice), rng));
    calls.extend(some(1, &steps(&no_points, &dice), rng));
    calls.extend(some(1, &steps(&no_points, &no_dice), rng));
    calls
}

fn is_legal(board: &Board, call: Call) -> bool {
    let case = PositionCase { board: *board, call };
    case.plain().packed == 0
}

/// `times` any of `calls`, or none if there are none.
fn some(times: usize, calls: &[Call], rng: &mut Rng) -> Vec<Call> {
    let times = if calls.is_empty() { 0 } else { times };
    (0..times).map(|_| rng.pick(calls)).collect()
}

fn record(case: &PositionCase, answer: &Answer) -> Vec<u8> {
    let (call, from, die) = match case.call {
        Call::Check => (0, 0, 0),
        Call::Switch => (1, 0, 0),
        Call::Step { from, die } => (2, from as u64, die as u64),
        Call::Result => (3, 0, 0),
    };
    let mut record = vec![call];
    record.extend(from.to_le_bytes());
    record.extend(die.to_le_bytes());
    record.extend(case.board.map(|entry| entry as u8));
    record.extend(answer.out.unwrap_or([PATTERN; 26]).map(|entry| entry as u8));
    record.extend(answer.packed.to_le_bytes());
    record
}
