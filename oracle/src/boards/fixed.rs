//! Boards that are compared whole, one after the other.

use munchalep::Board;
use std::ops::RangeInclusive;

/// Every accepted board with at most three checkers of x and two of o.
pub fn small_boards() -> Vec<Board> {
    let o_boards = placements(0..=24, 2, -1);
    let mut boards = Vec::new();
    for x in placements(1..=25, 3, 1) {
        let apart = |o: &&Board| x.iter().zip(*o).all(|(x, o)| x * o == 0);
        boards.extend(o_boards.iter().filter(apart).map(|o| sum(&x, o)));
    }
    boards
}

/// Every way to put at most `most` checkers of a side (1: x, -1: o) on `entries`.
fn placements(entries: RangeInclusive<usize>, most: usize, side: i8) -> Vec<Board> {
    // The highest entry in use comes along: adding only from there up makes each board once.
    let mut all = vec![(*entries.start(), [0; 26])];
    let mut newest = 0;
    for _ in 0..most {
        let end = all.len();
        for number in newest..end {
            let (highest, board) = all[number];
            for i in highest..=*entries.end() {
                let mut more = board;
                more[i] += side;
                all.push((i, more));
            }
        }
        newest = end;
    }
    all.into_iter().map(|(_, board)| board).collect()
}

fn sum(x: &Board, o: &Board) -> Board {
    std::array::from_fn(|i| x[i] + o[i])
}

/// Every board with two entries at or beside a limit and no others.
pub fn limit_pairs() -> Vec<Board> {
    const LIMITS: [i8; 15] = [-128, -127, -17, -16, -15, -14, -1, 0, 1, 14, 15, 16, 17, 126, 127];
    let mut boards = Vec::new();
    for i in 0..26 {
        for j in 0..i {
            for first in LIMITS {
                boards.extend(LIMITS.map(|second| super::board(&[(i, first), (j, second)])));
            }
        }
    }
    boards
}
