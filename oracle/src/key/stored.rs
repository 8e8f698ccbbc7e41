//! A sample of answers as data, for a program that replays them where there is no Rust.
//!
//! A record is 45 bytes, numbers low byte first, and nothing stands between records:
//!
//! | bytes | what |
//! |---|---|
//! | 1 | the call: 0 key, 1 board_of_key |
//! | 26 | for key the board given, else `out` afterwards: the board, or 26 times hex 55 |
//! | 10 | for board_of_key the key given, else `key` afterwards: the key, or 10 times hex 55 |
//! | 8 | the packed answer |

use super::{ReadCase, WriteCase, document, made};
use crate::answer::{Answer, Lendable};
use crate::boards::{kinds, sample};
use crate::difference::{Case, Difference};
use crate::plain;
use crate::rng::Rng;
use crate::store;
use munchalep::{Board, Key};
use std::collections::HashSet;

pub(super) type Record = [u8; 45];

/// Boards of each kind that are taken whatever they are, and those that are looked at.
const TAKEN: usize = 20;
const LOOKED_AT: usize = 200;

/// Answers of each sort, at least.
const OF_EACH: usize = 16;

/// The records of a seed's sample, on all of which the sides agree.
pub fn records(seed: u64) -> Result<Vec<u8>, Difference> {
    let mut records = Vec::new();
    for board in boards(seed) {
        records.push(of_board(&board)?);
    }
    for key in keys(seed) {
        records.push(of_key(&key)?);
    }
    let mut met = HashSet::new();
    records.retain(|&record| met.insert(record));
    assert_every_answer(&records);
    Ok(records.concat())
}

/// The document's and the manual's boards, some of every kind, and more of those whose refusal is
/// rare.
fn boards(seed: u64) -> Vec<Board> {
    let mut boards: Vec<Board> = document::keys().into_iter().map(|(board, _)| board).collect();
    let mut taken = [0; 5];
    for kind in 0..kinds().len() {
        for (i, board) in sample(seed, kind, LOOKED_AT).into_iter().enumerate() {
            let same = &mut taken[usize::from(plain::check(&board).err().unwrap_or(0))];
            if (i < TAKEN || *same < OF_EACH) && !boards.contains(&board) {
                *same += 1;
                boards.push(board);
            }
        }
    }
    boards
}

/// The document's and the manual's keys, some with each bit turned round, and keys made from boards
/// of every kind.
fn keys(seed: u64) -> Vec<Key> {
    let mut rng = Rng::new(seed, u64::MAX);
    let known: Vec<Key> = document::keys().into_iter().map(|(_, key)| key).collect();
    let damaged: Vec<Key> = known[..3].iter().flat_map(made::damages).collect();
    let refused = document::refused().into_iter().map(|(key, _)| key);
    let mut keys: Vec<Key> = known.into_iter().chain(damaged).chain(refused).collect();
    for board in boards(seed) {
        let mut made = made::of_board(&board, &mut rng);
        // Any bytes are seldom more than o's sixteenth checker.
        if rng.below(8) > 0 {
            made.pop();
        }
        keys.extend(made);
    }
    keys
}

/// Every answer is there, and none is rare.
fn assert_every_answer(records: &[Record]) {
    let [key, board_of_key] = [[0, 1, 2, 3, 4], [0, 15, 16, 17, 18]];
    let all = [key.map(|refusal| (0, refusal)), board_of_key.map(|refusal| (1, refusal))].concat();
    store::assert_every_answer(records.iter().map(|r| (r[0], r[37])), &all, OF_EACH);
}

/// The record of writing a board's key.
pub(super) fn of_board(board: &Board) -> Result<Record, Difference> {
    let answer = agreed(WriteCase { board: *board })?;
    Ok(record(0, board, &answer.out.unwrap_or(Key::BEFORE), answer.packed))
}

/// The record of reading a key.
pub(super) fn of_key(key: &Key) -> Result<Record, Difference> {
    let answer = agreed(ReadCase { key: *key })?;
    Ok(record(1, &answer.out.unwrap_or(Board::BEFORE), key, answer.packed))
}

/// What the sides answer to a case, if it is the same.
fn agreed<Out: Lendable, C: Case<Answer = Answer<Out>>>(
    case: C,
) -> Result<Answer<Out>, Difference> {
    let answers = case.answers();
    if answers.agree() { Ok(answers.decided()) } else { Err(Difference::of(case)) }
}

fn record(call: u8, board: &Board, key: &Key, packed: u64) -> Record {
    let mut record = [0; 45];
    record[0] = call;
    record[1..27].copy_from_slice(&board.map(|entry| entry as u8));
    record[27..37].copy_from_slice(key);
    record[37..].copy_from_slice(&packed.to_le_bytes());
    record
}
