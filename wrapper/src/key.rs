//! The key of a board: the ten bytes that GNU Backgammon's Position ID spells in base64.

use crate::refusal::value_of;
use crate::{Board, Refusal, raw};

/// Bytes of a key.
pub const KEY_BYTES: usize = 10;

/// Ten bytes; bit k is bit k % 8 of byte k / 8.
pub type Key = [u8; KEY_BYTES];

/// The board's key: o's checkers on points 24 to 0, then x's on 1 to 25, a 1 for each and a 0 after
/// each point. Different boards have different keys. Refuses 1, 2, 3, 4.
///
/// ```
/// let mut board = [0; 26];
/// (board[5], board[20]) = (1, -1);
/// let key = munchalep::key(&board)?;
/// assert_eq!(munchalep::board_of_key(&key)?, board);
/// # Ok::<(), munchalep::Refusal>(())
/// ```
pub fn key(board: &Board) -> Result<Key, Refusal> {
    let mut key = [0; KEY_BYTES];
    value_of(raw::munchalep_key(board, &mut key)).map(|_| key)
}

/// The board that has the key. Any ten bytes may be given; those that are no board's key are
/// refused. Refuses 15, 16, 17, 18.
pub fn board_of_key(key: &Key) -> Result<Board, Refusal> {
    let mut out = [0; 26];
    value_of(raw::munchalep_board_of_key(key, &mut out)).map(|_| out)
}

#[cfg(test)]
mod tests {
    use super::*;
    use crate::position::tests::{START, board, number};

    #[test]
    fn the_start_boards_key_is_the_manuals() {
        let manuals = [0xE0, 0x73, 0xF0, 0x01, 0x30, 0xE0, 0x73, 0xF0, 0x01, 0x30];
        assert_eq!(key(&START), Ok(manuals));
        assert_eq!(board_of_key(&manuals), Ok(START));
    }

    #[test]
    fn keys_are_read_back() {
        let boards = [
            [0; 26],
            board(&[(25, 15), (0, -15)]),
            board(&[(24, 1), (17, 1), (15, 1), (12, -2), (2, -1)]),
        ];
        for board in boards {
            assert_eq!(board_of_key(&key(&board).unwrap()), Ok(board));
        }
    }

    #[test]
    fn boards_that_are_not_accepted_have_no_key() {
        assert_eq!(number(key(&board(&[(24, 15), (25, 1)]))), Some(1));
        assert_eq!(number(key(&board(&[(0, -1), (1, -15)]))), Some(2));
        assert_eq!(number(key(&board(&[(25, -1)]))), Some(3));
        assert_eq!(number(key(&board(&[(0, 1)]))), Some(4));
    }

    #[test]
    fn bytes_that_are_no_key_are_refused_in_the_documents_order() {
        let with = |bytes: &[u8]| {
            let mut key = [0; KEY_BYTES];
            key[..bytes.len()].copy_from_slice(bytes);
            number(board_of_key(&key))
        };
        // Sixteen of o on 24, of x on 1, and both: o's sixteenth is met first.
        assert_eq!(with(&[0xFF; 10]), Some(15));
        assert_eq!(with(&[0xFF, 0xFF]), Some(15));
        assert_eq!(with(&[0xFF, 0x7F]), None);
        assert_eq!(with(&[0, 0, 0, 0xFE, 0xFF, 0x01]), Some(16));
        assert_eq!(with(&[0, 0, 0, 0xFE, 0xFF]), None);
        // One of each on 24.
        assert_eq!(with(&[1, 0, 0, 0, 0, 0, 2]), Some(17));
        // Bit 50 of the empty board's key, the first after its last end bit.
        assert_eq!(with(&[0, 0, 0, 0, 0, 0, 4]), Some(18));
        assert_eq!(with(&[0, 0, 0, 0, 0, 0, 0, 0, 0, 0x80]), Some(18));
    }
}
