//! Cards of more and more turns, up to as many as a card has. wildbg has no cards.

use crate::rng::Rng;
use engine::dice::Dice;
use engine::position::{GameState, Position, STARTING};
use munchalep::{Board, CARD_BYTES, MOST_TURNS, START_BYTES, TURN_BYTES};
use std::hint::black_box;

/// The turns of the cards that are measured.
pub const TURNS: [usize; 14] =
    [0, 1, 10, 50, 100, 200, 300, 400, 500, 600, 700, 800, 900, MOST_TURNS];

/// The routines by name. The last record is that of a turn, or where there is none that of the
/// start.
pub const NAMES: [&str; 3] = ["read", "last record written", "last position asked"];

/// The first turns of a game as a card, with what its last record is written from.
pub struct Card {
    turns: usize,
    bytes: Vec<u8>,
    dice: (usize, usize),
    last: Board,
}

impl Card {
    /// The card of the first `turns` turns of a card that has more, or as many.
    pub fn first_turns(card: &[u8], turns: usize) -> Card {
        let bytes = card[..START_BYTES + turns * TURN_BYTES].to_vec();
        let last = munchalep::card_position(&bytes, turns).expect("its beginning is a card too");
        // A start record has no dice, and is written without them.
        let dice = usize::from(bytes[bytes.len() - 3]);
        Card { turns, bytes, dice: (dice / 16, dice % 16), last }
    }

    /// The calls of a run: the more, the fewer turns there are.
    pub fn calls(&self) -> usize {
        10_000 / (self.turns + 1)
    }

    /// Runs the routine with a number. Answers how many calls it made.
    pub fn run(&mut self, routine: usize) -> usize {
        for _ in 0..self.calls() {
            match routine {
                0 => assert_eq!(munchalep::card_read(black_box(&self.bytes)), Ok(self.turns)),
                1 => self.write_last(),
                _ => assert_eq!(
                    munchalep::card_position(black_box(&self.bytes), self.turns),
                    Ok(self.last)
                ),
            }
        }
        self.calls()
    }

    /// Writes the last record over itself.
    fn write_last(&mut self) {
        let (whole, bytes, (die1, die2)) = (self.bytes.len(), &mut self.bytes, self.dice);
        let length = match self.turns {
            0 => munchalep::card_begin(black_box(&self.last), bytes),
            _ => munchalep::card_add(bytes, whole - TURN_BYTES, die1, die2, black_box(&self.last)),
        };
        assert_eq!(length, Ok(whole), "the record is written");
    }
}

/// The card of the first long enough game that a seed decides. Both sides hit wherever they can, so
/// that games last long.
pub fn longest(seed: u64) -> Vec<u8> {
    let mut rng = Rng::new(seed, 0);
    let card = std::iter::repeat_with(|| game(&mut rng)).find(|card| card.len() == CARD_BYTES);
    card.expect("there is no end of games")
}

/// The card of a game from the start board to its finish, or of as many turns as a card has.
fn game(rng: &mut Rng) -> Vec<u8> {
    let mut card = vec![0; START_BYTES];
    munchalep::card_begin(&STARTING.into(), &mut card).expect("the start board starts a card");
    let mut position = STARTING;
    while card.len() < CARD_BYTES && position.game_state() == GameState::Ongoing {
        let (die1, die2) = (rng.between(1, 6), rng.between(1, 6));
        let ends = position.all_positions_after_moving(&Dice::new(die1, die2));
        let number = rng.pick(&hits(&ends));
        let [low, high] = (number as u16).to_le_bytes();
        card.extend([0x54, 0x55, (die1.max(die2) * 16 + die1.min(die2)) as u8, low, high]);
        position = ends[number];
    }
    card
}

/// The numbers of the ends with the most checkers on the other side's bar.
fn hits(ends: &[Position]) -> Vec<usize> {
    let bar = |end: &Position| Board::from(*end)[25];
    let most = ends.iter().map(bar).max();
    (0..ends.len()).filter(|&number| Some(bar(&ends[number])) == most).collect()
}
