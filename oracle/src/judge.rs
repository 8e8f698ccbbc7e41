//! wildbg's answers, inside the domain where it decides. An answer is `None` outside that domain,
//! where wildbg is not called: it would panic, or answer for something that is not a board.

use crate::plain::Net;
use base64::Engine;
use base64::engine::general_purpose::STANDARD_NO_PAD;
use engine::dice::Dice;
use engine::inputs::{ContactInputsGen, InputsGen, RaceInputsGen};
use engine::position::{GamePhase, GameResult, OngoingPhase, Position};
use logic::bg_move::BgMove;
use munchalep::{Board, Key, Step};

/// What wildbg makes of a board.
pub enum Judge {
    /// A sum of checkers leaves i8.
    OutsideDomain,
    Refuses(u8),
    Accepts(Position),
}

impl Judge {
    pub fn of(board: &Board) -> Judge {
        if !sums_fit(board) {
            return Judge::OutsideDomain;
        }
        match Position::try_from(*board) {
            Ok(position) => Judge::Accepts(position),
            Err(message) => Judge::Refuses(refusal_number(message)),
        }
    }

    pub fn check(&self) -> Option<Result<(), u8>> {
        self.answer(|_| Some(Ok(())))
    }

    pub fn switch(&self) -> Option<Result<Board, u8>> {
        self.answer(|position| Some(Ok(position.sides_switched().into())))
    }

    pub fn step(&self, from: usize, die: usize) -> Option<Result<Board, u8>> {
        self.answer(|position| {
            if from > 25 || !(1..=6).contains(&die) {
                return None;
            }
            let after = position.try_move_single_checker(from, die);
            Some(after.map(Board::from).ok_or(9))
        })
    }

    pub fn result(&self) -> Option<Result<u8, u8>> {
        self.answer(|position| {
            if Board::from(*position) == [0; 26] {
                return None;
            }
            Some(Ok(phase_number(position.game_phase())))
        })
    }

    /// The ends of a roll in order, sides switched. wildbg decides on unfinished boards.
    pub fn ends(&self, dice: (usize, usize)) -> Option<Result<Vec<Position>, u8>> {
        self.answer(|position| {
            let board = Board::from(*position);
            let is_unfinished =
                board.iter().any(|&entry| entry > 0) && board.iter().any(|&entry| entry < 0);
            let dice = Dice::try_from(dice).ok().filter(|_| is_unfinished)?;
            Some(Ok(position.all_positions_after_moving(&dice)))
        })
    }

    /// The steps to an end, told before switching. wildbg decides on legal ends of a roll.
    pub fn steps(&self, end: &Board, dice: (usize, usize)) -> Option<Result<Vec<Step>, u8>> {
        self.answer(|position| {
            let end = Position::try_from(*end).expect("a legal end is accepted");
            let dice = Dice::try_from(dice).expect("a legal end has a roll");
            let details = BgMove::new(position, &end, &dice).into_details();
            let step = |from: usize, to: usize| Step { from: from as u8, to: to as u8 };
            Some(Ok(details.iter().map(|detail| step(detail.from(), detail.to())).collect()))
        })
    }

    pub fn key(&self) -> Option<Result<Key, u8>> {
        self.answer(|position| Some(Ok(key_of_id(&position.position_id()))))
    }

    /// The inputs of a net. wildbg decides on every board that it accepts.
    pub fn inputs(&self, net: Net) -> Option<Result<Vec<f32>, u8>> {
        self.answer(|position| {
            Some(Ok(match net {
                Net::Contact => filled(&ContactInputsGen {}, position),
                Net::Race => filled(&RaceInputsGen {}, position),
            }))
        })
    }

    /// The refusal of a board that wildbg refuses, else what is said of its position.
    fn answer<T>(
        &self,
        of_position: impl Fn(&Position) -> Option<Result<T, u8>>,
    ) -> Option<Result<T, u8>> {
        match self {
            Judge::OutsideDomain => None,
            Judge::Refuses(number) => Some(Err(*number)),
            Judge::Accepts(position) => of_position(position),
        }
    }
}

/// The ends of a roll in order, sides switched, on an unfinished accepted board.
pub fn ends_of(board: &Board, dice: (usize, usize)) -> Vec<Board> {
    let ends = Judge::of(board).ends(dice).expect("wildbg decides on unfinished boards");
    ends.expect("the board is accepted").into_iter().map(Board::from).collect()
}

/// A slice that wildbg fills. What it left out would stay a NaN, which no input is.
fn filled<G: InputsGen>(generator: &G, position: &Position) -> Vec<f32> {
    let mut inputs = vec![f32::NAN; G::NUM_INPUTS];
    generator.fill_inputs(position, &mut inputs);
    inputs
}

/// The board of a key. wildbg decides on those of accepted boards, and has base64 text for a key.
pub fn board_of_key(key: &Key) -> Board {
    Position::from_id(&STANDARD_NO_PAD.encode(key)).into()
}

fn key_of_id(id: &str) -> Key {
    let mut key = [0; 10];
    let length = STANDARD_NO_PAD.decode_slice(id, &mut key).expect("an ID is base64 of a key");
    assert_eq!(length, key.len(), "an ID has ten bytes: {id}");
    key
}

/// Whether both sums that `try_from` takes stay inside i8.
fn sums_fit(board: &Board) -> bool {
    let x: i32 = board.iter().map(|&entry| i32::from(entry).max(0)).sum();
    let o: i32 = board.iter().map(|&entry| i32::from(entry).min(0)).sum();
    i8::try_from(x).is_ok() && i8::try_from(o).is_ok()
}

fn refusal_number(message: &str) -> u8 {
    let openings = ["Player x", "Player o", "Index 25", "Index 0"];
    let place = openings.iter().position(|text| message.starts_with(text));
    1 + place.unwrap_or_else(|| panic!("wildbg's refusal has no number: {message}")) as u8
}

fn phase_number(phase: GamePhase) -> u8 {
    match phase {
        GamePhase::Ongoing(OngoingPhase::Contact) => 0,
        GamePhase::Ongoing(OngoingPhase::Race) => 1,
        GamePhase::GameOver(GameResult::WinNormal) => 2,
        GamePhase::GameOver(GameResult::WinGammon) => 3,
        GamePhase::GameOver(GameResult::WinBg) => 4,
        GamePhase::GameOver(GameResult::LoseNormal) => 5,
        GamePhase::GameOver(GameResult::LoseGammon) => 6,
        GamePhase::GameOver(GameResult::LoseBg) => 7,
    }
}
