//! The board: accepted or not, side switch, single step, result and phase.

use crate::refusal::value_of;
use crate::{Refusal, raw};

/// 26 signed bytes, seen from x, the side to move: positive counts x, negative counts o, entry 25
/// is x's bar, entry 0 is o's.
pub type Board = [i8; 26];

/// The result of a finished board, or the phase of one that is not, from x's side.
#[derive(Clone, Copy, Debug, PartialEq, Eq, Hash)]
pub enum Outcome {
    /// Unfinished, and the sides can still meet.
    Contact,
    /// Unfinished, and the sides are past each other.
    Race,
    /// x has all off, and o at least one.
    WinNormal,
    /// x has all off, and o none.
    WinGammon,
    /// x has all off, o none, and o has a checker on its bar or on 1 to 6.
    WinBg,
    /// o has all off, and x at least one.
    LoseNormal,
    /// o has all off, and x none.
    LoseGammon,
    /// o has all off, x none, and x has a checker on its bar or on 19 to 24.
    LoseBg,
}

impl Outcome {
    /// Every outcome, at the place of its number.
    pub const ALL: [Outcome; 8] = [
        Outcome::Contact,
        Outcome::Race,
        Outcome::WinNormal,
        Outcome::WinGammon,
        Outcome::WinBg,
        Outcome::LoseNormal,
        Outcome::LoseGammon,
        Outcome::LoseBg,
    ];
}

/// Whether the board is accepted. Refuses 1, 2, 3, 4.
pub fn check(board: &Board) -> Result<(), Refusal> {
    value_of(raw::munchalep_check(board)).map(|_| ())
}

/// The board seen from the other side: entry 25 - i of it is minus entry i of `board`. Refuses 1,
/// 2, 3, 4.
pub fn switch(board: &Board) -> Result<Board, Refusal> {
    let mut out = [0; 26];
    value_of(raw::munchalep_switch(board, &mut out)).map(|_| out)
}

/// The board after x moves one checker from `from` by `die`, still seen from x. It is one step of
/// a play: whether the rest of the roll can be played is not looked at, and finished boards are
/// taken. Refuses 1, 2, 3, 4, 7, 8, 9.
pub fn step(board: &Board, from: usize, die: usize) -> Result<Board, Refusal> {
    let mut out = [0; 26];
    let answer = raw::munchalep_step(board, from as u64, die as u64, &mut out);
    value_of(answer).map(|_| out)
}

/// The result, or the phase of a game that goes on. Refuses 1, 2, 3, 4, 6.
pub fn result(board: &Board) -> Result<Outcome, Refusal> {
    // The library is proved to answer 0 to 7.
    value_of(raw::munchalep_result(board)).map(|number| Outcome::ALL[number as usize])
}

#[cfg(test)]
pub(crate) mod tests {
    use super::*;

    pub(crate) const START: Board = [
        0, -2, 0, 0, 0, 0, 5, 0, 3, 0, 0, 0, -5, 5, 0, 0, 0, -3, 0, -5, 0, 0, 0, 0, 2, 0,
    ];

    pub(crate) fn board(entries: &[(usize, i8)]) -> Board {
        let mut board = [0; 26];
        for &(entry, checkers) in entries {
            board[entry] = checkers;
        }
        board
    }

    pub(crate) fn number<T>(answer: Result<T, Refusal>) -> Option<u8> {
        answer.err().map(|refusal| refusal.number)
    }

    #[test]
    fn fifteen_checkers_are_accepted_and_sixteen_refused() {
        assert_eq!(check(&START), Ok(()));
        assert_eq!(check(&board(&[(24, 15)])), Ok(()));
        assert_eq!(number(check(&board(&[(24, 15), (25, 1)]))), Some(1));
        assert_eq!(number(check(&board(&[(0, -1), (1, -15)]))), Some(2));
        assert_eq!(number(check(&board(&[(25, -1)]))), Some(3));
        assert_eq!(number(check(&board(&[(0, 1)]))), Some(4));
    }

    #[test]
    fn switching_turns_the_board_round() {
        let switched = switch(&board(&[(25, 2), (24, -3), (0, -1)])).unwrap();
        assert_eq!(switched, board(&[(0, -2), (1, 3), (25, 1)]));
        assert_eq!(switch(&START), Ok(START));
        assert_eq!(number(switch(&board(&[(0, 1)]))), Some(4));
    }

    #[test]
    fn a_step_moves_hits_or_bears_off() {
        let hit = step(&board(&[(5, 1), (4, -1)]), 5, 1);
        assert_eq!(hit, Ok(board(&[(4, 1), (0, -1)])));
        let off = step(&board(&[(5, 1), (20, -1)]), 5, 6);
        assert_eq!(off, Ok(board(&[(20, -1)])));
        assert_eq!(number(step(&START, 8, 7)), Some(7));
        assert_eq!(number(step(&START, 26, 6)), Some(8));
        assert_eq!(number(step(&START, 7, 6)), Some(9));
    }

    #[test]
    fn every_outcome_is_reached() {
        let boards = [
            START,
            board(&[(3, 1), (20, -1)]),
            board(&[(3, -14)]),
            board(&[(7, -15)]),
            board(&[(6, -15)]),
            board(&[(20, 14)]),
            board(&[(18, 15)]),
            board(&[(19, 15)]),
        ];
        assert_eq!(boards.map(|board| result(&board).unwrap()), Outcome::ALL);
        assert_eq!(number(result(&[0; 26])), Some(6));
    }
}
