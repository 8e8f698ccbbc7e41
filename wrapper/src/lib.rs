//! Which positions a backgammon roll may lead to: safe functions over Munchalep's C interface.
//!
//! A [`Board`] is 26 signed bytes, seen from x, the side to move. A positive entry counts checkers
//! of x, a negative one checkers of o. Entries 1 to 24 are the points, and x moves towards 1. Entry
//! 25 is x's bar, entry 0 is o's bar. A side has 15 checkers; those not on the board are off.
//!
//! Nothing has to hold of a board or a number before a call: the library is proved for every
//! input, and answers or refuses. A [`Refusal`] says why.
//!
//! ```
//! let mut board = [0; 26];
//! board[8] = 3;
//! let after = munchalep::step(&board, 8, 3)?;
//! assert_eq!((after[8], after[5]), (2, 1));
//! # Ok::<(), munchalep::Refusal>(())
//! ```

#![no_std]

mod card;
mod inputs;
mod key;
mod moves;
mod position;
pub mod raw;
mod recover;
mod refusal;

pub use card::{
    CARD_BYTES, MOST_TURNS, START_BYTES, TURN_BYTES, card_add, card_begin, card_position, card_read,
};
pub use inputs::{
    CONTACT_INPUTS, RACE_INPUTS, contact_input, contact_inputs, race_input, race_inputs,
};
pub use key::{KEY_BYTES, Key, board_of_key, key};
pub use moves::{END_BYTES, MOST_ENDS, count, end, list};
pub use position::{Board, Outcome, check, result, step, switch};
pub use recover::{MOST_STEPS, Step, recover};
pub use refusal::Refusal;

/// The example of the README, compiled and run with the tests.
#[cfg(doctest)]
#[doc = include_str!("../../README.md")]
struct Readme;
