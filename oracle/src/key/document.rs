//! The keys that document 01 and GNU Backgammon's manual print, and keys worked out by hand from
//! document 01's words.

use super::{ReadCase, WriteCase};
use crate::answer::Answer;
use crate::boards::board;
use crate::difference::{Difference, told};
use crate::plain;
use munchalep::{Board, Key};

/// Boards with their keys.
pub(super) fn keys() -> Vec<(Board, Key)> {
    let twelve = |first: usize, checkers: i8| (first..first + 6).map(move |i| (i, checkers));
    let shut_out: Vec<_> = twelve(1, 2).chain(twelve(19, -2)).chain([(25, 1), (0, -1)]).collect();
    vec![
        // Document 01, "Key"; the manual's example, ID 4HPwATDgc/ABMA.
        (plain::start(), bytes(0xE073_F001_30E0_73F0_0130)),
        // The manual's example of Hypergammon, ID ADAAAQAkIAAAAA.
        (board(&[(24, 1), (17, 1), (15, 1), (12, -2), (2, -1)]), bytes(0x0030_0001_0024_2000_0000)),
        // Document 01, "Game card": the example's start and end.
        (board(&[(5, 1), (20, -1)]), bytes(0x1000_0040_0000_0000_0000)),
        (board(&[(5, 1)]), bytes(0x0000_0020_0000_0000_0000)),
        // No checker; every checker on a bar; each side at its key's beginning.
        (board(&[]), bytes(0)),
        (board(&[(25, 15), (0, -15)]), bytes(0x0000_00FF_7F00_0000_FF7F)),
        (board(&[(1, 15), (24, -15)]), bytes(0xFF7F_0000_00FF_7F00_0000)),
        // Neither side can enter.
        (board(&shut_out), bytes(0xDBB6_0100_D0B6_6D00_0004)),
    ]
}

/// Keys that are refused, each with its number.
pub(super) fn refused() -> Vec<(Key, u8)> {
    vec![
        // Document 01, "Boards to try", 12.
        (bytes(0xFFFF_FFFF_FFFF_FFFF_FFFF), 15),
        // Sixteen of o on 24, of x on 1, and both.
        (bytes(0xFFFF_0000_0000_0000_0000), 15),
        (bytes(0x0000_00FE_FF01_0000_0000), 16),
        (bytes(0xFFFF_0000_00FE_FF01_0000), 15),
        // Sixteen of o or of x, both sides on 24, and a bit after the last end bit.
        (bytes(0xFFFF_0000_0000_0001_0080), 15),
        (bytes(0x0100_00FC_FF01_0002_0080), 16),
        // Both sides on 24, without and with a bit after the last end bit.
        (bytes(0x0100_0000_0000_0200_0000), 17),
        (bytes(0x0100_0000_0000_0200_0080), 17),
        // No checker, and the first or the last bit after the last end bit.
        (bytes(0x0000_0000_0000_0400_0000), 18),
        (bytes(0x0000_0000_0000_0000_0080), 18),
    ]
}

/// Holds the sides to each other, and to the document's and the manual's answers.
pub fn compare() -> Result<(), Difference> {
    for (board, key) in keys() {
        told(WriteCase { board }, Answer::of_written(Ok(key)))?;
        told(ReadCase { key }, Answer::of_board(Ok(board)))?;
    }
    refused()
        .into_iter()
        .try_for_each(|(key, refusal)| told(ReadCase { key }, Answer::of_board(Err(refusal))))
}

/// The key that has these bytes, the first one highest.
fn bytes(hex: u128) -> Key {
    let [_, _, _, _, _, _, key @ ..] = hex.to_be_bytes();
    key
}
