//! "Key" as plain code: a run is the checkers of a side on a point.

use super::check;
use munchalep::{Board, Key};

/// Runs of a key: o's on 25 points, then x's on 25.
pub const RUNS: usize = 50;

/// Bits of a key.
pub const BITS: usize = 80;

/// The points of the runs: "For points 24 down to 0 ..", "For points 1 to 25 ..".
fn points() -> impl Iterator<Item = usize> {
    (0..=24).rev().chain(1..=25)
}

/// The checkers of each run, whatever the board.
pub fn runs(board: &Board) -> [usize; RUNS] {
    let mut runs = [0; RUNS];
    for (n, point) in points().enumerate() {
        let checkers = i32::from(board[point]);
        runs[n] = if n < 25 { -checkers } else { checkers }.max(0) as usize;
    }
    runs
}

/// "A 1 for each .. checker, then a 0"; "bit k of the key is bit k % 8 of byte k / 8". Runs that are
/// too long for a key are cut off.
pub fn written(runs: &[usize; RUNS]) -> Key {
    let mut key = [0; 10];
    let bits = runs.iter().flat_map(|&checkers| (0..=checkers).map(move |i| i < checkers));
    for (k, _) in bits.take(BITS).enumerate().filter(|&(_, bit)| bit) {
        key[k / 8] |= 1 << (k % 8);
    }
    key
}

/// The board's key. Refuses 1 to 4.
pub fn key(board: &Board) -> Result<Key, u8> {
    check(board)?;
    let key = written(&runs(board));
    assert_eq!(board_of_key(&key), Ok(*board), "a key is read back");
    Ok(key)
}

/// The board of a key. Order of refusals: 15, 16, 17, 18.
pub fn board_of_key(key: &Key) -> Result<Board, u8> {
    let mut bits = (0..BITS).map(|k| key[k / 8] >> (k % 8) & 1 == 1);
    let runs: [usize; RUNS] =
        std::array::from_fn(|_| bits.by_ref().take_while(|&is_checker| is_checker).count());
    if runs[..25].iter().sum::<usize>() > 15 {
        return Err(15);
    }
    if runs[25..].iter().sum::<usize>() > 15 {
        return Err(16);
    }
    let mut board = [0; 26];
    for (n, point) in points().enumerate().filter(|&(n, _)| runs[n] > 0) {
        if board[point] != 0 {
            return Err(17);
        }
        board[point] = if n < 25 { -(runs[n] as i8) } else { runs[n] as i8 };
    }
    if bits.any(|bit| bit) {
        return Err(18);
    }
    let is_key = check(&board).is_ok() && written(&self::runs(&board)) == *key;
    assert!(is_key, "what is read is the key of an accepted board: {key:?}");
    Ok(board)
}
