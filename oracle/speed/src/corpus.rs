//! The boards and rolls that are measured: of games from the start board, each end as likely as any
//! other, and boards on which a roll has more ends than in games.

use crate::rng::Rng;
use engine::dice::{ALL_21, Dice};
use engine::position::{GameState, Position, STARTING};
use munchalep::Board;

/// A board to move from, for either side to measure, and its roll.
#[derive(Clone, Copy)]
pub struct Turn {
    pub position: Position,
    pub board: Board,
    pub roll: Dice,
    pub dice: (usize, usize),
}

impl Turn {
    pub fn is_double(&self) -> bool {
        self.dice.0 == self.dice.1
    }

    /// The ends in order, sides switched.
    pub fn ends(&self) -> Vec<Position> {
        self.position.all_positions_after_moving(&self.roll)
    }
}

/// A turn and an end of it: its number, and the end told before switching, for either side to
/// measure.
pub struct Played {
    pub turn: Turn,
    pub number: usize,
    pub position: Position,
    pub board: Board,
}

/// The position of a board that wildbg accepts.
pub fn judged(board: &Board) -> Position {
    Position::try_from(*board).expect("an accepted board")
}

/// The first `number` unfinished boards of games that a seed decides.
pub fn boards(seed: u64, number: usize) -> Vec<Position> {
    let mut rng = Rng::new(seed, 0);
    let (mut boards, mut position) = (Vec::new(), STARTING);
    while boards.len() < number {
        boards.push(position);
        let roll = Dice::new(rng.between(1, 6), rng.between(1, 6));
        position = rng.pick(&position.all_positions_after_moving(&roll));
        if position.game_state() != GameState::Ongoing {
            position = STARTING;
        }
    }
    boards
}

/// The points of x on the board with the most ends that was found: double 1, 2,226 ends.
const MOST_FOUND: [usize; 15] = [24, 22, 21, 19, 18, 16, 15, 13, 12, 10, 9, 7, 6, 4, 3];

/// Boards with many ends: the one with the most that was found, and `number` that a seed decides.
pub fn spread_boards(seed: u64, number: usize) -> Vec<Position> {
    let mut rng = Rng::new(seed, 0);
    let others = (0..number).map(|_| spread(some_points(&mut rng)));
    std::iter::once(spread(MOST_FOUND)).chain(others).collect()
}

/// The board with a checker of x on each of the points, and one of o on its bar.
fn spread(points: [usize; 15]) -> Position {
    let mut board: Board = [0; 26];
    board[0] = -1;
    points.into_iter().for_each(|point| board[point] = 1);
    judged(&board)
}

/// Fifteen points, any as likely as others.
fn some_points(rng: &mut Rng) -> [usize; 15] {
    let mut free: Vec<usize> = (1..=24).collect();
    std::array::from_fn(|_| free.swap_remove(rng.below(free.len())))
}

/// Every board with each of the 21 rolls.
pub fn turns(boards: &[Position]) -> Vec<Turn> {
    let turn = |&position: &Position, roll: Dice| {
        let dice = match roll {
            Dice::Double(die) => (die, die),
            Dice::Mixed(dice) => (dice.big(), dice.small()),
        };
        Turn { position, board: position.into(), roll, dice }
    };
    let rolls = |position| ALL_21.iter().map(move |&(roll, _)| turn(position, roll));
    boards.iter().flat_map(rolls).collect()
}

/// Each turn with one of its ends, which a seed decides.
pub fn played(turns: &[Turn], seed: u64) -> Vec<Played> {
    let mut rng = Rng::new(seed, 0);
    let mut play = |&turn: &Turn| {
        let ends = turn.ends();
        let number = rng.below(ends.len());
        let position = ends[number].sides_switched();
        Played { turn, number, position, board: position.into() }
    };
    turns.iter().map(&mut play).collect()
}
