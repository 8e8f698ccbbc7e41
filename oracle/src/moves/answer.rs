//! What an entry that takes a board and dice answers: its packed number, and what it did to lent
//! memory, however much of it there is.

use super::{Call, MovesCase};
use crate::answer::{BoardText, unpacked};
use crate::guarded::{Guarded, Item};
use munchalep::{Board, END_BYTES, raw};
use std::fmt;
use std::hint::black_box;

/// Boards of an answer that are shown.
const SHOWN: usize = 8;

/// The answer to one call.
#[derive(PartialEq, Eq)]
pub struct Answer {
    pub packed: u64,
    /// What was written to lent memory: its bytes up to the last that changed.
    pub written: Vec<u8>,
    /// Whether a byte outside lent memory changed.
    pub strayed: bool,
}

impl Answer {
    /// The answer of `call` where these are the ends, or they are refused.
    pub fn of_ends(call: Call, ends: &Result<Vec<Board>, u8>) -> Answer {
        match ends {
            Err(refusal) => Answer::refused(*refusal, 0),
            Ok(ends) => Answer::among(call, ends),
        }
    }

    fn among(call: Call, ends: &[Board]) -> Answer {
        let number = ends.len() as u64;
        match call {
            Call::Count => Answer::value(number, &[]),
            Call::List { length } if length < ends.len() * END_BYTES => Answer::refused(10, number),
            Call::List { .. } => Answer::value(number, ends),
            Call::End { number } => match ends.get(number) {
                None => Answer::refused(11, 0),
                Some(end) => Answer::value(0, &[*end]),
            },
        }
    }

    fn value(value: u64, boards: &[Board]) -> Answer {
        let written = boards.as_flattened().iter().map(|&entry| entry as u8).collect();
        Answer { packed: value << 8, written, strayed: false }
    }

    pub fn refused(refusal: u8, value: u64) -> Answer {
        let packed = value << 8 | u64::from(refusal);
        Answer { packed, written: Vec::new(), strayed: false }
    }

    /// The library's answer.
    pub fn of_call(case: &MovesCase) -> Answer {
        let length = if let Call::List { length } = case.call { length } else { 0 };
        let mut given = Guarded::with(&case.board);
        let mut list = Guarded::blank(length);
        let mut out = Guarded::blank(26);
        let packed = call(case, given.lent(), list.lent(), out.lent());
        // The compiler may take for granted that only what was lent changed; it is to look.
        black_box((&mut given, &mut list, &mut out));
        Answer {
            packed,
            written: [written(list.lent(), |byte| byte), written(out.lent(), |entry| entry as u8)]
                .concat(),
            strayed: given.lent() != case.board
                || given.strayed()
                || list.strayed()
                || out.strayed(),
        }
    }
}

/// Makes a call: of the board `given`, with the list or the board that it is lent.
fn call(case: &MovesCase, given: &[i8], list: &mut [u8], out: &mut [i8]) -> u64 {
    let (die1, die2) = (case.dice.0 as u64, case.dice.1 as u64);
    let given = given.try_into().expect("a board was put there");
    let out = out.try_into().expect("a board was put there");
    match case.call {
        Call::Count => raw::munchalep_count(given, die1, die2),
        Call::List { .. } => raw::munchalep_list(given, die1, die2, list),
        Call::End { number } => raw::munchalep_end(given, die1, die2, number as u64, out),
    }
}

/// The bytes up to the last that changed, where all were the pattern.
fn written<T: Item>(lent: &[T], byte: fn(T) -> u8) -> Vec<u8> {
    let last = lent.iter().rposition(|item| !item.is_pattern());
    lent[..last.map_or(0, |last| last + 1)].iter().map(|&item| byte(item)).collect()
}

impl fmt::Display for Answer {
    fn fmt(&self, f: &mut fmt::Formatter<'_>) -> fmt::Result {
        let (refusal, value) = unpacked(self.packed);
        write!(f, "refusal {refusal}, value {value}, ")?;
        match self.written.len() {
            0 => write!(f, "nothing written")?,
            bytes => write!(f, "{bytes} bytes written")?,
        }
        if self.strayed {
            write!(f, ", BYTES OUTSIDE LENT MEMORY CHANGED")?;
        }
        let (boards, rest) = self.written.as_chunks::<END_BYTES>();
        for (number, board) in boards.iter().enumerate().take(SHOWN) {
            write!(f, "\n    {number}: {}", BoardText(&board.map(|byte| byte as i8)))?;
        }
        if boards.len() > SHOWN {
            write!(f, "\n    .. {} boards in all", boards.len())?;
        }
        if !rest.is_empty() {
            write!(f, "\n    IN PART {rest:?}")?;
        }
        Ok(())
    }
}
