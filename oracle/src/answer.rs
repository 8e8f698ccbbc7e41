//! What an entry that takes a board or a key answers: its packed number, and what it did to lent
//! memory.

use crate::guarded::Item;
use munchalep::{Board, Key};
use std::fmt;
use std::hint::black_box;

/// What stands in lent memory before a call. No accepted board has such an entry.
pub const PATTERN: i8 = 0x55;

impl Item for i8 {
    const PATTERN: i8 = PATTERN;
}

impl Item for u8 {
    const PATTERN: u8 = PATTERN as u8;
}

/// What a call may be lent to write to: a board or a key.
pub trait Lendable: Copy + PartialEq {
    /// How it stands before a call; no answer is the same.
    const BEFORE: Self;

    /// An answer, or what else it was changed to, as text.
    fn text(&self) -> String;
}

impl Lendable for Board {
    const BEFORE: Board = [PATTERN; 26];

    fn text(&self) -> String {
        if self.contains(&PATTERN) {
            return format!("IN PART {self:?}");
        }
        BoardText(self).to_string()
    }
}

impl Lendable for Key {
    // It has forty 1s, a key at most thirty.
    const BEFORE: Key = [PATTERN as u8; 10];

    fn text(&self) -> String {
        KeyText(self).to_string()
    }
}

/// The answer to one call.
#[derive(Clone, Copy, PartialEq, Eq)]
pub struct Answer<Out = Board> {
    pub packed: u64,
    /// What was written to `out`; none where it is as it was.
    pub out: Option<Out>,
    /// Whether a lent byte outside `out` changed.
    pub strayed: bool,
}

impl Answer {
    /// The answer of an entry that writes a board.
    pub fn of_board(board: Result<Board, u8>) -> Answer {
        Answer::of_written(board)
    }

    /// The answer of an entry that writes nothing.
    pub fn of_value(value: Result<u8, u8>) -> Answer {
        Answer { packed: packed(value), out: None, strayed: false }
    }
}

impl<Out: Lendable> Answer<Out> {
    /// The answer of an entry that writes, its value 0.
    pub fn of_written(written: Result<Out, u8>) -> Answer<Out> {
        Answer { packed: packed(written.map(|_| 0)), out: written.ok(), strayed: false }
    }

    /// The answer of a call that is given a board or a key and lent `out`.
    pub fn of_call<Given: Copy + PartialEq>(
        given: &Given,
        call: impl FnOnce(&Given, &mut Out) -> u64,
    ) -> Answer<Out> {
        let mut lent = Lent::with(given);
        let packed = call(&lent.given, &mut lent.out);
        // The compiler may take for granted that only `out` changed; it is to look.
        let lent = black_box(&mut lent);
        let was = Lent::with(given);
        Answer {
            packed,
            out: (lent.out != was.out).then_some(lent.out),
            strayed: lent.given != was.given || lent.guards() != was.guards(),
        }
    }
}

/// A value or a refusal as an entry packs it.
fn packed(value: Result<u8, u8>) -> u64 {
    match value {
        Ok(value) => u64::from(value) << 8,
        Err(refusal) => u64::from(refusal),
    }
}

/// Lent memory: what is given and what is to be written, with guards that no call may touch. The
/// odd lengths put both where nothing is aligned.
#[repr(C)]
struct Lent<Given, Out> {
    before: [i8; 9],
    given: Given,
    between: [i8; 9],
    out: Out,
    after: [i8; 9],
}

impl<Given: Copy, Out: Lendable> Lent<Given, Out> {
    /// The memory before a call.
    fn with(given: &Given) -> Lent<Given, Out> {
        Lent {
            before: [PATTERN; 9],
            given: *given,
            between: [PATTERN; 9],
            out: Out::BEFORE,
            after: [PATTERN; 9],
        }
    }

    fn guards(&self) -> [[i8; 9]; 3] {
        [self.before, self.between, self.after]
    }
}

impl<Out: Lendable> fmt::Display for Answer<Out> {
    fn fmt(&self, f: &mut fmt::Formatter<'_>) -> fmt::Result {
        let (refusal, value) = unpacked(self.packed);
        write!(f, "refusal {refusal}, value {value}, ")?;
        match &self.out {
            None => write!(f, "out as it was")?,
            Some(out) => write!(f, "out {}", out.text())?,
        }
        if self.strayed {
            write!(f, ", BYTES OUTSIDE out CHANGED")?;
        }
        Ok(())
    }
}

/// The refusal number and the value of a packed answer.
pub fn unpacked(packed: u64) -> (u8, u64) {
    (packed as u8, packed >> 8)
}

/// A board as text: x's checkers from the top down, o's from the bottom up, each point:checkers.
pub struct BoardText<'a>(pub &'a Board);

impl fmt::Display for BoardText<'_> {
    fn fmt(&self, f: &mut fmt::Formatter<'_>) -> fmt::Result {
        let entries = || self.0.iter().enumerate();
        f.write_str("x")?;
        for (i, checkers) in entries().rev().filter(|&(_, &entry)| entry > 0) {
            write!(f, " {i}:{checkers}")?;
        }
        f.write_str("; o")?;
        for (i, checkers) in entries().filter(|&(_, &entry)| entry < 0) {
            write!(f, " {i}:{}", checkers.unsigned_abs())?;
        }
        Ok(())
    }
}

/// A key as text: its bytes in hex.
pub struct KeyText<'a>(pub &'a Key);

impl fmt::Display for KeyText<'_> {
    fn fmt(&self, f: &mut fmt::Formatter<'_>) -> fmt::Result {
        self.0.iter().try_for_each(|byte| write!(f, "{byte:02X}"))
    }
}
