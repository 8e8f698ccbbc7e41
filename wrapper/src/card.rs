//! Game cards: a record of the start board, and a record for each turn.

use crate::refusal::value_of;
use crate::{Board, Refusal, raw};

/// Bytes of a start record.
pub const START_BYTES: usize = 12;

/// Bytes of a turn's record.
pub const TURN_BYTES: usize = 5;

/// The most turns of a game.
pub const MOST_TURNS: usize = 1000;

/// Room for any card.
pub const CARD_BYTES: usize = START_BYTES + MOST_TURNS * TURN_BYTES;

/// Begins a card: writes the start record of a board to the buffer's first [`START_BYTES`], and
/// answers the card's length. Refuses 1, 2, 3, 4, 6, 5, 19.
///
/// ```
/// use munchalep::{card_add, card_begin, card_position, card_read};
///
/// let mut board = [0; 26];
/// (board[5], board[20]) = (1, -1);
/// let mut buffer = [0; munchalep::CARD_BYTES];
/// let length = card_begin(&board, &mut buffer)?;
/// // The one end of 6-1: x bears off.
/// let end = munchalep::end(&board, 6, 1, 0)?;
/// let length = card_add(&mut buffer, length, 6, 1, &end)?;
/// assert_eq!(card_read(&buffer[..length])?, 1);
/// assert_eq!(card_position(&buffer[..length], 1)?, end);
/// # Ok::<(), munchalep::Refusal>(())
/// ```
pub fn card_begin(board: &Board, buffer: &mut [u8]) -> Result<usize, Refusal> {
    value_of(raw::munchalep_card_begin(board, buffer)).map(|length| length as usize)
}

/// Adds a turn to the card in the first `length` bytes of the buffer: writes its record after them,
/// and answers the card's new length. All other bytes stay. The turn is played from the card's last
/// position, and `end` is the board that it leaves, sides switched.
///
/// Refuses 19 where the buffer is shorter than the card, what [`card_read`] refuses of the card,
/// then 22, 25, 7, 12, 19.
pub fn card_add(
    buffer: &mut [u8],
    length: usize,
    die1: usize,
    die2: usize,
    end: &Board,
) -> Result<usize, Refusal> {
    let (length, die1, die2) = (length as u64, die1 as u64, die2 as u64);
    value_of(raw::munchalep_card_add(buffer, length, die1, die2, end)).map(|length| length as usize)
}

/// Reads a whole card: the number of its turns. Refuses 20, 21, 15, 16, 17, 18, 6, 5, then for each
/// turn 22, 23, 24, 25, 26, 11; the refusal carries its byte offset in the card.
pub fn card_read(card: &[u8]) -> Result<usize, Refusal> {
    value_of(raw::munchalep_card_read(card)).map(|turns| turns as usize)
}

/// The position of a card with a number: 0 is the start board, k the board after turn k, as the
/// side sees it that moves next. Refuses what [`card_read`] refuses, then 36.
pub fn card_position(card: &[u8], number: usize) -> Result<Board, Refusal> {
    let mut out = [0; 26];
    value_of(raw::munchalep_card_position(card, number as u64, &mut out)).map(|_| out)
}

#[cfg(test)]
mod tests {
    use super::*;
    use crate::position::tests::{START, board, number};
    use crate::{end, switch};

    /// The document's card: a lone x on 5 and a lone o on 20, and a turn of 6-1 that bears it off.
    const CARD: [u8; 17] = [
        0x53, 0x54, 0x10, 0, 0, 0x40, 0, 0, 0, 0, 0, 0, 0x54, 0x55, 0x61, 0, 0,
    ];

    fn refused<T>(number: u8, at: usize) -> Result<T, Refusal> {
        let carried = at as u64;
        Err(Refusal { number, carried })
    }

    /// The document's card with some bytes from a place on changed.
    fn with(at: usize, bytes: &[u8]) -> [u8; 17] {
        let mut card = CARD;
        card[at..at + bytes.len()].copy_from_slice(bytes);
        card
    }

    #[test]
    fn the_documents_card_is_written_and_read() {
        let lone = board(&[(5, 1), (20, -1)]);
        let off = board(&[(5, 1)]);
        let mut buffer = [7; 19];
        assert_eq!(card_begin(&lone, &mut buffer), Ok(12));
        assert_eq!(buffer[..12], CARD[..12]);
        assert_eq!(buffer[12..], [7; 7]);
        assert_eq!(card_read(&buffer[..12]), Ok(0));
        assert_eq!(card_add(&mut buffer, 12, 1, 6, &off), Ok(17));
        assert_eq!(buffer[..17], CARD);
        assert_eq!(buffer[17..], [7; 2]);
        assert_eq!(card_read(&CARD), Ok(1));
        assert_eq!(card_position(&CARD, 0), Ok(lone));
        assert_eq!(card_position(&CARD, 1), Ok(off));
        assert_eq!(card_position(&CARD, 2), refused(36, 0));
    }

    #[test]
    fn a_games_positions_are_given_back() {
        let (rolls, mut buffer) = ([(3, 1), (6, 6), (2, 5), (4, 4), (1, 2)], [0; 37]);
        let mut positions = [START; 6];
        let mut length = card_begin(&START, &mut buffer).unwrap();
        for (i, &(die1, die2)) in rolls.iter().enumerate() {
            let end = end(&positions[i], die1, die2, 1).unwrap();
            length = card_add(&mut buffer, length, die2, die1, &end).unwrap();
            positions[i + 1] = end;
        }
        assert_eq!(length, 37);
        assert_eq!(card_read(&buffer), Ok(5));
        for (i, position) in positions.iter().enumerate() {
            assert_eq!(card_position(&buffer, i), Ok(*position));
        }
        assert_eq!(card_position(&buffer, 6), refused(36, 0));
    }

    #[test]
    fn a_card_is_refused_in_the_documents_order_with_its_place() {
        assert_eq!(card_read(&[]), refused(20, 0));
        assert_eq!(card_read(&with(0, &[0])[..11]), refused(20, 0));
        assert_eq!(card_read(&with(1, &[0x55, 0xFF, 0xFF])), refused(21, 0));
        assert_eq!(card_read(&with(2, &[0xFF; 10])), refused(15, 0));
        assert_eq!(card_read(&with(2, &[0; 10])), refused(6, 0));
        assert_eq!(card_read(&with(2, &[0, 0, 0, 0x40])), refused(5, 0));
        assert_eq!(card_read(&with(12, &[0])[..16]), refused(23, 12));
        assert_eq!(card_read(&with(12, &[0x55, 0x54, 0])), refused(24, 12));
        assert_eq!(card_read(&with(14, &[0x16])), refused(26, 12));
        assert_eq!(card_read(&with(15, &[1])), refused(11, 12));
        assert_eq!(card_read(&with(16, &[1])), refused(11, 12));
        // After the finish a whole turn is one too many; what is no turn's record is told first.
        let mut longer = [0; 22];
        longer[..17].copy_from_slice(&CARD);
        assert_eq!(card_read(&longer), refused(24, 17));
        longer[17..19].copy_from_slice(&[0x54, 0x55]);
        assert_eq!(card_read(&longer), refused(25, 17));
        assert_eq!(card_position(&longer, 0), refused(25, 17));
        assert_eq!(card_position(&longer[..20], 9), refused(23, 17));
    }

    #[test]
    fn a_refused_call_writes_nothing() {
        let lone = board(&[(5, 1), (20, -1)]);
        let off = board(&[(5, 1)]);
        let mut buffer = [7; 16];
        assert_eq!(
            number(card_begin(&board(&[(24, 16)]), &mut buffer)),
            Some(1)
        );
        assert_eq!(number(card_begin(&[0; 26], &mut [])), Some(6));
        assert_eq!(number(card_begin(&off, &mut [])), Some(5));
        assert_eq!(card_begin(&lone, &mut buffer[..11]), refused(19, 0));
        assert_eq!(buffer, [7; 16]);
        assert_eq!(card_add(&mut buffer, 17, 0, 7, &off), refused(19, 0));
        assert_eq!(card_add(&mut buffer, 16, 0, 7, &off), refused(21, 0));
        buffer[..12].copy_from_slice(&CARD[..12]);
        assert_eq!(card_add(&mut buffer, 13, 0, 7, &lone), refused(23, 12));
        assert_eq!(card_add(&mut buffer, 12, 0, 7, &lone), refused(7, 0));
        assert_eq!(card_add(&mut buffer, 12, 6, 1, &lone), refused(12, 0));
        assert_eq!(card_add(&mut buffer, 12, 6, 1, &off), refused(19, 0));
        assert_eq!(buffer[12..], [7; 4]);
        let mut full = CARD;
        assert_eq!(card_add(&mut full, 17, 0, 7, &off), refused(25, 0));
        assert_eq!(full, CARD);
    }

    #[test]
    fn a_thousand_turns_are_accepted_and_no_more() {
        // Both sides are shut out for good: each turn leaves the board, switched.
        let mut shut = [0; 26];
        shut[1..7].fill(2);
        shut[19..25].fill(-2);
        (shut[25], shut[0]) = (1, -2);
        let switched = switch(&shut).unwrap();
        let mut buffer = [0; CARD_BYTES + 1];
        let mut length = card_begin(&shut, &mut buffer).unwrap();
        for _ in 0..MOST_TURNS / 2 {
            length = card_add(&mut buffer, length, 6, 5, &switched).unwrap();
            length = card_add(&mut buffer, length, 3, 3, &shut).unwrap();
        }
        assert_eq!(length, CARD_BYTES);
        assert_eq!(card_read(&buffer[..CARD_BYTES]), Ok(MOST_TURNS));
        assert_eq!(card_position(&buffer[..CARD_BYTES], 999), Ok(switched));
        assert_eq!(card_position(&buffer[..CARD_BYTES], 1000), Ok(shut));
        assert_eq!(card_add(&mut buffer, length, 0, 0, &shut), refused(22, 0));
        assert_eq!(card_read(&buffer), refused(22, 5012));
    }
}
