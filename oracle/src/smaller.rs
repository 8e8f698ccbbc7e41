//! Smaller inputs to try in the place of one on which the sides differ.

use munchalep::Board;

/// Boards with fewer checkers, and boards with as many on fewer entries.
pub fn boards(board: &Board) -> Vec<Board> {
    let mut smaller = Vec::new();
    for (i, &entry) in board.iter().enumerate().filter(|&(_, &entry)| entry != 0) {
        for less in [0, entry / 2, entry - entry.signum()] {
            let mut fewer = *board;
            fewer[i] = less;
            smaller.push(fewer);
        }
        smaller.extend(emptied(board, i));
    }
    smaller
}

/// The boards with the checkers of entry `i` moved to another entry of the same side.
fn emptied(board: &Board, i: usize) -> impl Iterator<Item = Board> {
    let others = (0..26).filter(move |&j| j != i && board[j].signum() == board[i].signum());
    others.filter_map(move |j| {
        let mut moved = *board;
        moved[i] = 0;
        moved[j] = board[j].checked_add(board[i])?;
        Some(moved)
    })
}

/// Some numbers below `number`.
pub fn numbers(number: usize) -> impl Iterator<Item = usize> {
    let some = [0, number / 2, number.saturating_sub(1)];
    some.into_iter().filter(move |&less| less < number)
}
