//! What an entry over a card answers: its packed number, and what it left in lent memory.

use super::{Call, CardCase};
use crate::answer::{BoardText, Lendable, unpacked};
use crate::guarded::Guarded;
use crate::plain::card::Refused;
use munchalep::{Board, raw};
use std::fmt;
use std::hint::black_box;

/// Bytes of a line of hex.
const LINE: usize = 40;

/// The answer to one call.
#[derive(PartialEq, Eq)]
pub struct Answer {
    pub packed: u64,
    /// Every byte of the buffer, where one is lent, afterwards.
    pub buffer: Vec<u8>,
    /// What was written to `out`; none where it is as it was.
    pub out: Option<Board>,
    /// Whether a byte changed that is neither the buffer's nor of `out`.
    strayed: bool,
}

impl Answer {
    pub fn value(value: usize, buffer: Vec<u8>) -> Answer {
        Answer { packed: (value as u64) << 8, buffer, out: None, strayed: false }
    }

    pub fn refused(Refused { number, at }: Refused, buffer: Vec<u8>) -> Answer {
        let packed = (at as u64) << 8 | u64::from(number);
        Answer { packed, buffer, out: None, strayed: false }
    }

    pub fn position(board: Board) -> Answer {
        Answer { packed: 0, buffer: Vec::new(), out: Some(board), strayed: false }
    }

    /// The library's answer.
    pub fn of_call(case: &CardCase) -> Answer {
        let given = case.board();
        let mut board = Guarded::with(&given);
        let mut card = Guarded::with(&case.card);
        let mut buffer = Guarded::with(&case.buffer());
        let mut out = Guarded::with(&Board::BEFORE);
        let packed = call(case, board.lent(), card.lent(), buffer.lent(), out.lent());
        // The compiler may take for granted that only what was lent changed; it is to look.
        black_box((&mut board, &mut card, &mut buffer, &mut out));
        let after: Board = out.lent().try_into().expect("a board was put there");
        Answer {
            packed,
            buffer: buffer.lent().to_vec(),
            out: (after != Board::BEFORE).then_some(after),
            strayed: board.lent() != given
                || card.lent() != case.card
                || [board.strayed(), card.strayed(), buffer.strayed(), out.strayed()]
                    .contains(&true),
        }
    }
}

/// Makes a call: of the board or the card that is given, with the buffer or the board that it is
/// lent.
fn call(case: &CardCase, board: &[i8], card: &[u8], buffer: &mut [u8], out: &mut [i8]) -> u64 {
    let board = board.try_into().expect("a board was put there");
    let out = out.try_into().expect("a board was put there");
    match case.call {
        Call::Begin { .. } => raw::munchalep_card_begin(board, buffer),
        Call::Add { length, dice: (die1, die2), .. } => {
            raw::munchalep_card_add(buffer, length as u64, die1 as u64, die2 as u64, board)
        }
        Call::Read => raw::munchalep_card_read(card),
        Call::Position { number } => raw::munchalep_card_position(card, number as u64, out),
    }
}

impl fmt::Display for Answer {
    fn fmt(&self, f: &mut fmt::Formatter<'_>) -> fmt::Result {
        let (refusal, value) = unpacked(self.packed);
        write!(f, "refusal {refusal}, value {value}")?;
        if let Some(board) = &self.out {
            write!(f, ", out {}", BoardText(board))?;
        }
        if self.strayed {
            write!(f, ", OTHER BYTES CHANGED")?;
        }
        if !self.buffer.is_empty() {
            write!(f, ", the buffer:\n{}", hex(&self.buffer))?;
        }
        Ok(())
    }
}

/// Bytes in hex, in lines.
pub fn hex(bytes: &[u8]) -> String {
    let line = |bytes: &[u8]| bytes.iter().map(|byte| format!(" {byte:02X}")).collect::<String>();
    let lines: Vec<String> =
        bytes.chunks(LINE).map(|bytes| format!("   {}", line(bytes))).collect();
    lines.join("\n")
}
