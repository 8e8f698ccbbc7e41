//! The boards that are compared, in numbered blocks: first the fixed ones, then random ones
//! without end. The seed and its number decide a block, however many threads there are.

mod fixed;
mod random;

use crate::position::document;
use crate::rng::Rng;
use munchalep::Board;
use std::borrow::Cow;

/// Boards of a block, at most.
const BLOCK: usize = 1000;

/// Makes all boards of a kind.
type Maker = fn() -> Vec<Board>;

/// Kinds of input that are compared whole, before any random one.
const FIXED: [(&str, Maker); 3] = [
    ("document 01's boards", document::boards),
    ("every small board", fixed::small_boards),
    ("two entries at limits", fixed::limit_pairs),
];

/// The names of all kinds of input, fixed ones first. A kind is known by its place here.
pub fn kinds() -> Vec<&'static str> {
    let fixed = FIXED.iter().map(|&(name, _)| name);
    fixed.chain(random::KINDS.map(|(name, _)| name)).collect()
}

pub struct Boards {
    seed: u64,
    /// The blocks of fixed boards, each with its kind.
    fixed: Vec<(usize, Vec<Board>)>,
}

impl Boards {
    pub fn new(seed: u64) -> Boards {
        let mut fixed = Vec::new();
        for (kind, (_, boards)) in FIXED.iter().enumerate() {
            fixed.extend(boards().chunks(BLOCK).map(|block| (kind, block.to_vec())));
        }
        Boards { seed, fixed }
    }

    /// The number of the first random block.
    pub fn first_random(&self) -> usize {
        self.fixed.len()
    }

    /// A block's kind and boards. Random blocks take turns among their kinds.
    pub fn block(&self, number: usize) -> (usize, Cow<'_, [Board]>) {
        if let Some((kind, boards)) = self.fixed.get(number) {
            return (*kind, Cow::Borrowed(boards));
        }
        let kind = (number - self.fixed.len()) % random::KINDS.len();
        let mut rng = Rng::new(self.seed, number as u64);
        let boards = (0..BLOCK).map(|_| random::KINDS[kind].1(&mut rng)).collect();
        (FIXED.len() + kind, boards)
    }
}

/// Some boards of a kind, which the seed decides.
pub fn sample(seed: u64, kind: usize, number: usize) -> Vec<Board> {
    let mut rng = Rng::new(seed, kind as u64);
    match FIXED.get(kind) {
        Some((_, boards)) => {
            let boards = boards();
            (0..number).map(|_| rng.pick(&boards)).collect()
        }
        None => {
            let make = random::KINDS[kind - FIXED.len()].1;
            (0..number).map(|_| make(&mut rng)).collect()
        }
    }
}

/// The board that has these entries, each a point and its checkers, and no others.
pub fn board(entries: &[(usize, i8)]) -> Board {
    let mut board = [0; 26];
    for &(point, checkers) in entries {
        board[point] = checkers;
    }
    board
}
