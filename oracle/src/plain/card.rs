//! "Game card" as plain code: cards written and read, and the card program's text.

use super::{board_of_key, dice_byte, dice_of, key, result, rolls, started};
use crate::answer::KeyText;
use munchalep::{Board, Key};
use std::fmt::Write;

/// Bytes of a start record and of a turn record.
pub const START: usize = 12;
pub const TURN: usize = 5;

/// "A turn beyond the 1,000th."
pub const MOST_TURNS: usize = 1000;

const START_MARK: [u8; 2] = [0x53, 0x54];
const TURN_MARK: [u8; 2] = [0x54, 0x55];

/// Who lists the ends of a roll, sides switched, on an unfinished accepted board.
pub type Lister = fn(&Board, (usize, usize)) -> Vec<Board>;

/// A refusal, with the byte offset of the refused record where a card was read.
#[derive(Clone, Copy, Debug, PartialEq, Eq)]
pub struct Refused {
    pub number: u8,
    pub at: usize,
}

impl Refused {
    /// A refusal that tells of no record.
    pub fn bare(number: u8) -> Refused {
        Refused { number, at: 0 }
    }
}

/// A turn as its record has it, and how many ends its roll has.
#[derive(Clone, Copy)]
pub struct Turn {
    pub byte: u8,
    pub number: usize,
    pub ends: usize,
}

/// What a card says: the start and the board after each turn and its switch, and the turns.
#[derive(Clone)]
pub struct Game {
    pub positions: Vec<Board>,
    pub turns: Vec<Turn>,
}

impl Game {
    /// The board after the last turn.
    pub fn last(&self) -> &Board {
        self.positions.last().expect("there is a start")
    }
}

/// "Start record: mark 53 54 (hex), ten key bytes." Order of refusals: 1 to 4, 6, 5.
pub fn start_record(board: &Board) -> Result<[u8; START], u8> {
    started(board)?;
    let mut record = [0; START];
    record[..2].copy_from_slice(&START_MARK);
    record[2..].copy_from_slice(&key(board)?);
    Ok(record)
}

/// "Turn record: mark 54 55, dice byte, the end's number in the list in two bytes, low first."
pub fn turn_record(byte: u8, number: usize) -> [u8; TURN] {
    let [low, high] = u16::try_from(number).expect("a list has 17,550 ends at most").to_le_bytes();
    [TURN_MARK[0], TURN_MARK[1], byte, low, high]
}

/// "Reading: 20, 21, the key's refusal, 6, 5; then each turn 22, 23, 24, 25, 26, 11."
pub fn read(card: &[u8], lister: Lister) -> Result<Game, Refused> {
    let start = start(card).map_err(Refused::bare)?;
    read_on(Game { positions: vec![start], turns: Vec::new() }, card, lister)
}

/// What a card is read as that begins with the records of `game`.
pub fn read_on(mut game: Game, card: &[u8], lister: Lister) -> Result<Game, Refused> {
    let first = game.turns.len();
    for (k, record) in card[START..].chunks(TURN).enumerate().skip(first) {
        let refused = |number| Refused { number, at: START + k * TURN };
        if k == MOST_TURNS {
            return Err(refused(22));
        }
        let (turn, after) = turn(game.last(), record, lister).map_err(refused)?;
        game.turns.push(turn);
        game.positions.push(after);
    }
    Ok(game)
}

fn start(card: &[u8]) -> Result<Board, u8> {
    let record: &[u8; START] = card.first_chunk().ok_or(20)?;
    if record[..2] != START_MARK {
        return Err(21);
    }
    let key: &Key = record.last_chunk().expect("a record is longer");
    let board = board_of_key(key)?;
    started(&board).map(|()| board)
}

/// The turn whose record this is, and the board after it and its switch.
fn turn(before: &Board, record: &[u8], lister: Lister) -> Result<(Turn, Board), u8> {
    let &[mark1, mark2, byte, low, high] = record else {
        return Err(23);
    };
    if [mark1, mark2] != TURN_MARK {
        return Err(24);
    }
    if is_finished(before) {
        return Err(25);
    }
    if !rolls().iter().any(|&(_, roll)| roll == byte) {
        return Err(26);
    }
    let number = usize::from(u16::from_le_bytes([low, high]));
    let ends = lister(before, dice_of(byte));
    let after = ends.get(number).ok_or(11)?;
    Ok((Turn { byte, number, ends: ends.len() }, *after))
}

/// Whether a side has all its checkers off.
pub fn is_finished(board: &Board) -> bool {
    started(board).is_err()
}

/// "Beginning a card refuses 1 to 4, 6, 5, 19, then writes 12 bytes": its length.
pub fn begun(buffer: &mut [u8], board: &Board) -> Result<usize, Refused> {
    let record = start_record(board).map_err(Refused::bare)?;
    *buffer.first_chunk_mut().ok_or(Refused::bare(19))? = record;
    Ok(START)
}

/// "Adding a turn is given the buffer and the card's length; a length above the buffer's is 19
/// before anything else. It reads the card so far (its refusals, with their offsets), then 22, 25,
/// 7, 12, 19, and writes 5 bytes after it": the card's new length. How the card so far is read is
/// given.
pub fn added(
    buffer: &mut [u8],
    length: usize,
    so_far: &Result<Game, Refused>,
    dice: (usize, usize),
    end: &Board,
    lister: Lister,
) -> Result<usize, Refused> {
    let (_, rest) = buffer.split_at_mut_checked(length).ok_or(Refused::bare(19))?;
    let game = so_far.as_ref().map_err(|&refused| refused)?;
    let record = next_record(game, dice, end, lister).map_err(Refused::bare)?;
    *rest.first_chunk_mut().ok_or(Refused::bare(19))? = record;
    Ok(length + TURN)
}

/// The record of a turn after a game. Order of refusals: 22, 25, 7, 12.
fn next_record(
    game: &Game,
    dice: (usize, usize),
    end: &Board,
    lister: Lister,
) -> Result<[u8; TURN], u8> {
    if game.turns.len() == MOST_TURNS {
        return Err(22);
    }
    if is_finished(game.last()) {
        return Err(25);
    }
    let byte = dice_byte(dice)?;
    let number = lister(game.last(), dice).iter().position(|listed| listed == end).ok_or(12)?;
    Ok(turn_record(byte, number))
}

/// "A position is asked by its number .. the whole card is read first, then 36."
pub fn position(reading: &Result<Game, Refused>, number: usize) -> Result<Board, Refused> {
    let game = reading.as_ref().map_err(|&refused| refused)?;
    game.positions.get(number).copied().ok_or(Refused::bare(36))
}

/// What the card program prints of a card.
pub fn text(card: &[u8], lister: Lister) -> String {
    let game = match read(card, lister) {
        Err(Refused { number, at }) => return format!("refused {number} at {at}\n"),
        Ok(game) => game,
    };
    let key_of = |board: &Board| key(board).expect("a position is accepted");
    let mut text = format!("start {}\n", KeyText(&key_of(&game.positions[0])));
    for (i, (turn, after)) in game.turns.iter().zip(&game.positions[1..]).enumerate() {
        let Turn { byte, number, ends } = turn;
        let key = key_of(after);
        writeln!(text, "{} {byte:02X} {number} {ends} {}", i + 1, KeyText(&key))
            .expect("a string takes all");
    }
    let result = result(game.last()).expect("a position has a result or a phase");
    text + &format!("result {result}\n")
}
