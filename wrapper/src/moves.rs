//! The ends of a roll: every board that x may leave, once, as the other side sees it.

use crate::refusal::value_of;
use crate::{Board, Refusal, raw};

/// Bytes of an end in a list.
pub const END_BYTES: usize = 26;

/// The most ends that a roll can have.
pub const MOST_ENDS: usize = 17_550;

/// Writes the ends of a roll to `list`, [`END_BYTES`] an end, two's complement, sides switched, and
/// answers their number. Bytes after the last end stay. Where nothing can be played there is one
/// end, the board itself, switched. The dice may be given in either order.
///
/// Refuses 1, 2, 3, 4, 6, 5, 7, and then 10 where the list is shorter than its ends: it stays as it
/// was, and the refusal carries their number. With room for [`MOST_ENDS`] it never is, and the ends
/// are not counted first, which takes less time.
///
/// ```
/// use munchalep::END_BYTES;
///
/// let (mut board, mut list) = ([0; 26], [0; 2 * END_BYTES]);
/// (board[13], board[12]) = (1, -1);
/// let number = munchalep::list(&board, 2, 1, &mut list)?;
/// // x reaches 10, seen as 15 from the other side, over 12 with a hit or over 11 without one.
/// let bars: Vec<u8> = list.chunks(END_BYTES).map(|end| end[25]).collect();
/// assert_eq!((number, bars), (2, vec![1, 0]));
/// # Ok::<(), munchalep::Refusal>(())
/// ```
pub fn list(board: &Board, die1: usize, die2: usize, list: &mut [u8]) -> Result<usize, Refusal> {
    value_of(raw::munchalep_list(board, die1 as u64, die2 as u64, list))
        .map(|number| number as usize)
}

/// The number of ends of a roll. Refuses 1, 2, 3, 4, 6, 5, 7.
pub fn count(board: &Board, die1: usize, die2: usize) -> Result<usize, Refusal> {
    value_of(raw::munchalep_count(board, die1 as u64, die2 as u64)).map(|number| number as usize)
}

/// The end with a number, counted from 0 in the order of [`list`], sides switched. Refuses 1, 2, 3,
/// 4, 6, 5, 7, 11.
pub fn end(board: &Board, die1: usize, die2: usize, number: usize) -> Result<Board, Refusal> {
    let mut out = [0; 26];
    let answer = raw::munchalep_end(board, die1 as u64, die2 as u64, number as u64, &mut out);
    value_of(answer).map(|_| out)
}

#[cfg(test)]
mod tests {
    use super::*;
    use crate::position::tests::{START, board, number};

    /// The bytes of boards, one after another.
    fn bytes<const N: usize>(ends: [Board; N]) -> [[u8; END_BYTES]; N] {
        ends.map(|end| end.map(|entry| entry as u8))
    }

    #[test]
    fn a_list_has_the_ends_switched_and_bytes_after_them_stay() {
        let given = board(&[(13, 1), (12, -1)]);
        let ends = [board(&[(15, -1), (25, 1)]), board(&[(15, -1), (13, 1)])];
        let mut lent = [0x55; 2 * END_BYTES + 3];
        assert_eq!(list(&given, 1, 2, &mut lent), Ok(2));
        let (listed, rest) = lent.split_at(2 * END_BYTES);
        assert_eq!(listed, bytes(ends).as_flattened());
        assert_eq!(rest, [0x55; 3]);
    }

    #[test]
    fn a_short_list_is_refused_with_the_number_of_ends() {
        let given = board(&[(13, 1), (12, -1)]);
        let mut lent = [0x55; 2 * END_BYTES - 1];
        let refusal = Refusal {
            number: 10,
            carried: 2,
        };
        assert_eq!(list(&given, 2, 1, &mut lent), Err(refusal));
        assert_eq!(lent, [0x55; 2 * END_BYTES - 1]);
        assert_eq!(list(&given, 2, 1, &mut []), Err(refusal));
    }

    #[test]
    fn ends_are_counted_and_asked_by_number() {
        let mut lent = [0; 20 * END_BYTES];
        let ends = count(&START, 3, 1).unwrap();
        assert_eq!(list(&START, 1, 3, &mut lent), Ok(ends));
        for (i, listed) in lent.chunks(END_BYTES).take(ends).enumerate() {
            let end = end(&START, 3, 1, i).unwrap();
            assert_eq!(listed, end.map(|entry| entry as u8));
        }
        assert_eq!(number(end(&START, 3, 1, ends)), Some(11));
        assert_eq!(number(end(&START, 3, 1, usize::MAX)), Some(11));
    }

    #[test]
    fn no_play_leaves_one_end() {
        let shut_out = board(&[(25, 1), (19, -2), (20, -2)]);
        assert_eq!(count(&shut_out, 6, 5), Ok(1));
        let switched = board(&[(0, -1), (6, 2), (5, 2)]);
        assert_eq!(end(&shut_out, 6, 5, 0), Ok(switched));
    }

    #[test]
    fn plays_are_refused_in_the_documents_order() {
        let (empty, finished) = ([0; 26], board(&[(3, 1)]));
        let both = board(&[(24, 16), (25, -1)]);
        assert_eq!(number(count(&both, 0, 7)), Some(1));
        assert_eq!(number(count(&empty, 0, 7)), Some(6));
        assert_eq!(number(count(&finished, 0, 7)), Some(5));
        assert_eq!(number(count(&START, 0, 1)), Some(7));
        assert_eq!(number(end(&START, 1, 7, usize::MAX)), Some(7));
        assert_eq!(number(list(&START, 1, 0x1_0000_0001, &mut [])), Some(7));
    }
}
