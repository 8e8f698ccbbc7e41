//! A sample of answers as data, for a program that replays them where there is no Rust.
//!
//! A record is 232 bytes, and nothing stands between records:
//!
//! | bytes | what |
//! |---|---|
//! | 1 | the net: 0 contact, 1 race |
//! | 1 | how many floats are lent, at most 203 |
//! | 26 | the board given |
//! | 1 | the refusal number, 0 for none; the answer carries no value |
//! | 203 | each lent float afterwards; 85 where it is as it was, and after the last |
//!
//! A float is stored as the one byte that it equals, since every input is a whole number: the value
//! and the byte have the same bits as floats, or nothing is stored. A replay lends NaNs, and no
//! input is one. One input by place has no records of its own: it has to be the float that stands
//! in the slice.

use super::answer::Answer;
use super::{Call, InputsCase, document};
use crate::boards::{kinds, sample};
use crate::difference::{Case, Difference};
use crate::plain::{self, Net};
use crate::rng::Rng;
use crate::store;
use munchalep::Board;
use std::collections::HashSet;

/// Floats that a record has room for.
const MOST: usize = 203;

type Record = [u8; 29 + MOST];

/// What stands for a float that is as it was before a call.
const BEFORE: u8 = 85;

/// Boards of each kind that are taken whatever they are, and those that are looked at.
const TAKEN: usize = 12;
const LOOKED_AT: usize = 200;

/// Answers of each sort, at least.
const OF_EACH: usize = 16;

/// Lengths that neither net takes, or the other one.
const LENGTHS: [usize; 8] = [0, 1, 185, 186, 187, 201, 202, 203];

/// The records of a seed's sample, on all of which the sides agree.
pub fn records(seed: u64) -> Result<Vec<u8>, Difference> {
    let mut rng = Rng::new(seed, u64::MAX);
    let mut records = Vec::new();
    for board in boards(seed) {
        for net in Net::ALL {
            records.push(record(&board, net, net.size())?);
            if rng.once_in(4) {
                records.push(record(&board, net, rng.pick(&LENGTHS))?);
            }
        }
    }
    let mut met = HashSet::new();
    records.retain(|&record| met.insert(record));
    assert_every_answer(&records);
    Ok(records.concat())
}

/// The document's boards, some of every kind, and more of those whose refusal is rare.
fn boards(seed: u64) -> Vec<Board> {
    let mut boards = document::boards();
    boards.push(plain::start());
    let mut taken = [0; 5];
    for kind in 0..kinds().len() {
        for (i, board) in sample(seed, kind, LOOKED_AT).into_iter().enumerate() {
            let same = &mut taken[usize::from(plain::check(&board).err().unwrap_or(0))];
            if (i < TAKEN || *same < OF_EACH) && !boards.contains(&board) {
                *same += 1;
                boards.push(board);
            }
        }
    }
    boards
}

/// Every answer of both nets is there, and none is rare.
fn assert_every_answer(records: &[Record]) {
    let all = [0, 1].map(|net| [0, 1, 2, 3, 4, 13].map(|refusal| (net, refusal))).concat();
    store::assert_every_answer(records.iter().map(|r| (r[0], r[28])), &all, OF_EACH);
}

/// The record of filling `length` floats with the inputs of a board.
fn record(board: &Board, net: Net, length: usize) -> Result<Record, Difference> {
    let answer = agreed(InputsCase { board: *board, net, call: Call::Fill { length } })?;
    for place in 0..=net.size() {
        agreed(InputsCase { board: *board, net, call: Call::One { place } })?;
    }
    let mut record = [BEFORE; 29 + MOST];
    record[0] = match net {
        Net::Contact => 0,
        Net::Race => 1,
    };
    record[1] = length as u8;
    record[2..28].copy_from_slice(&board.map(|entry| entry as u8));
    record[28] = answer.packed.try_into().expect("the answer carries no value");
    for (byte, bits) in record[29..].iter_mut().zip(answer.written.into_iter().flatten()) {
        *byte = whole(f32::from_bits(bits));
    }
    Ok(record)
}

/// What the sides answer to a case, if it is the same.
fn agreed(case: InputsCase) -> Result<Answer, Difference> {
    let answers = case.answers();
    if answers.agree() { Ok(answers.decided()) } else { Err(Difference::of(case)) }
}

/// The byte that an input is, bit for bit, and that does not stand for a float as it was.
fn whole(input: f32) -> u8 {
    let byte = input as u8;
    assert_eq!(f32::from(byte).to_bits(), input.to_bits(), "{input} is no byte");
    assert!(byte < BEFORE, "{input} is no input");
    byte
}
