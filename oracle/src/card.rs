//! The entries over a game card: card_begin, card_add, card_read and card_position.

mod answer;
mod damaged;
pub mod document;
mod games;
pub mod program;
pub mod stored;

use crate::answer::{BoardText, PATTERN};
use crate::counts::{Counts, Entry};
use crate::difference::{Answers, Case, Difference};
use crate::moves::no_roll;
use crate::plain::card::{self, Game, Lister, Refused, START, TURN};
use crate::rng::Rng;
use crate::{judge, plain, smaller};
use answer::Answer;
use games::Played;
use munchalep::Board;

/// One board in this many starts a game, which takes as long as all else that is compared of many
/// boards; and of the boards with few checkers, which are very many, one in as many of these.
const GAMES: usize = 32;
const GAMES_OF_FEW: usize = 16;

/// One game in this many starts from the start board.
const FROM_START: usize = 4;

/// One game in this many has every position asked, and one is written by the library, turn after
/// turn; if it has at most so many, since each call reads the whole card.
const ALL_POSITIONS: usize = 16;
const WRITTEN: usize = 16;
const ALL_TURNS: usize = 160;

/// One game in this many has turns added after its end, and one to its first turns.
const ADDED_AFTER: usize = 8;
const ADDED_WITHIN: usize = 2;

/// One game in this many has every byte changed and every length cut, if its card has at most so
/// many bytes.
const ALL_DAMAGES: usize = 512;
const ALL_DAMAGES_BYTES: usize = 160;

/// Damaged cards of each game.
const DAMAGED: usize = 48;

/// Position numbers that no card has. Cut to 16 or 32 bits, all but the last would be 0 or 1.
const NO_POSITIONS: [usize; 4] = [0x1_0000, 0x1_0000_0001, 1 << 63, usize::MAX];

/// What a card is read as.
type Reading = Result<Game, Refused>;

/// In the place of a reading where nothing is read.
const NO_CARD: Reading = Err(Refused { number: 20, at: 0 });

/// Begins a card with `board`, plays a game from there if it can be played, and makes calls of the
/// game's card and of damaged ones. The board decides what is left to chance.
pub fn compare(board: &Board, counts: &mut Counts) -> Result<(), Difference> {
    let mut rng = Rng::of_board(board);
    for room in [rng.below(START), START, rng.between(START + 1, START + 9)] {
        let case = CardCase { card: Vec::new(), call: Call::Begin { board: *board, room } };
        counted(case, &NO_CARD, counts)?;
    }
    if plain::started(board).is_err() {
        return Ok(());
    }
    let boards = if has_few(board) { GAMES * GAMES_OF_FEW } else { GAMES };
    if !rng.once_in(boards) {
        return Ok(());
    }
    let start = if rng.once_in(FROM_START) { plain::start() } else { *board };
    compare_game(&games::played(&start, &mut rng), &mut rng, counts)
}

/// Whether an accepted board has at most three checkers of x and two of o.
fn has_few(board: &Board) -> bool {
    let all = |sign: i8| board.iter().map(|&entry| (sign * entry).max(0)).sum::<i8>();
    all(1) <= 3 && all(-1) <= 2
}

/// Makes the calls of a game's card, and of cards that are damaged.
fn compare_game(played: &Played, rng: &mut Rng, counts: &mut Counts) -> Result<(), Difference> {
    let turns = played.game.turns.len();
    let known = Known::game(played);
    known.counted(Call::Read, counts)?;
    counts.add_game(turns as u64);
    let is_asked = |number: &usize| *number < 2 || *number >= turns;
    let asks_all = turns <= ALL_TURNS && rng.once_in(ALL_POSITIONS);
    for number in (0..turns + 2).filter(|number| asks_all || is_asked(number)) {
        known.counted(Call::Position { number }, counts)?;
    }
    known.counted(Call::Position { number: rng.pick(&NO_POSITIONS) }, counts)?;
    known.counted(Call::Position { number: rng.below(turns + 1) }, counts)?;
    if turns <= ALL_TURNS && rng.once_in(WRITTEN) {
        compare_written(played, counts)?;
    }
    if rng.once_in(ADDED_AFTER) {
        compare_adding(&known, rng, counts)?;
    }
    if rng.once_in(ADDED_WITHIN) {
        compare_adding(&Known::game(&played.cut(rng.below(turns))), rng, counts)?;
    }
    for _ in 0..DAMAGED {
        compare_damaged(played, &damaged::some(played, rng), rng, counts)?;
    }
    if played.card.len() <= ALL_DAMAGES_BYTES && rng.once_in(ALL_DAMAGES) {
        for card in damaged::all(&played.card) {
            compare_damaged(played, &card, rng, counts)?;
        }
    }
    Ok(())
}

/// Writes a game's card by the library, turn after turn, in as much room as it takes.
fn compare_written(played: &Played, counts: &mut Counts) -> Result<(), Difference> {
    let Played { card, game } = played;
    for (k, turn) in game.turns.iter().enumerate() {
        let so_far = played.cut(k);
        let (room, length) = (card.len(), so_far.card.len());
        let (dice, end) = (plain::dice_of(turn.byte), game.positions[k + 1]);
        Known::game(&so_far).counted(Call::Add { room, length, dice, end }, counts)?;
    }
    Ok(())
}

/// Adds turns to a card that is known: legal ones and others, in buffers of many lengths.
fn compare_adding(known: &Known, rng: &mut Rng, counts: &mut Counts) -> Result<(), Difference> {
    let length = known.card.len();
    let dice = rng.pick(&plain::all_dice());
    let ends = match &known.reading {
        Ok(game) if !card::is_finished(game.last()) => judge::ends_of(game.last(), dice),
        _ => vec![plain::start()],
    };
    let end = rng.pick(&ends);
    let add = |room: usize, dice: (usize, usize), end: Board| Call::Add { room, length, dice, end };
    let mut calls: Vec<Call> =
        (length..=length + TURN + 2).map(|room| add(room, dice, end)).collect();
    calls.push(add(length + TURN, (dice.1, dice.0), rng.pick(&ends)));
    calls.push(add(length + 200, dice, rng.pick(&ends)));
    // Given unswitched, from another roll, damaged, or with dice that are no roll; with room or
    // without.
    let room = length + rng.below(2 * TURN);
    let mut changed = end;
    let place = rng.below(26);
    changed[place] = changed[place].wrapping_add(rng.pick(&[-1, 1]));
    let unswitched = std::array::from_fn(|i| end[25 - i].wrapping_neg());
    let wrong = [changed, unswitched, plain::start(), [0; 26], [PATTERN; 26]];
    calls.extend(wrong.map(|end| add(room, dice, end)));
    calls.push(add(room, rng.pick(&plain::all_dice()), end));
    calls.push(add(room, no_roll(rng), end));
    calls.into_iter().try_for_each(|call| known.counted(call, counts))?;
    // A length that is not the card's: above the buffer's, or within it.
    let lengths = [length + 1, length + TURN, rng.below(length + 1), usize::MAX, 1 << 63];
    for length in lengths {
        let call = Call::Add { room: known.card.len() + rng.below(2), length, dice, end };
        let case = CardCase { card: known.card.to_vec(), call };
        let reading = case.reading(judge::ends_of);
        counted(case, &reading, counts)?;
    }
    Ok(())
}

/// Reads a card that is made from a game's, and at times asks a position of it or adds a turn to it.
fn compare_damaged(
    played: &Played,
    card: &[u8],
    rng: &mut Rng,
    counts: &mut Counts,
) -> Result<(), Difference> {
    let known = Known { card, reading: played.read(card) };
    known.counted(Call::Read, counts)?;
    counts.add_damaged();
    let turns = known.reading.as_ref().map_or(2, |game| game.turns.len());
    if rng.once_in(4) {
        let any = rng.below(turns + 1);
        let number = rng.pick(&[0, turns, turns + 1, any]);
        known.counted(Call::Position { number }, counts)?;
    }
    if rng.once_in(32) {
        compare_adding(&known, rng, counts)?;
    }
    Ok(())
}

/// A card and what it is read as.
struct Known<'a> {
    card: &'a [u8],
    reading: Reading,
}

impl Known<'_> {
    fn game(played: &Played) -> Known<'_> {
        Known { card: &played.card, reading: Ok(played.game.clone()) }
    }

    /// Compares one call of the card and counts it.
    fn counted(&self, call: Call, counts: &mut Counts) -> Result<(), Difference> {
        counted(CardCase { card: self.card.to_vec(), call }, &self.reading, counts)
    }
}

/// Compares one call and counts it. Beside the library's answer stands that of the document's words
/// with wildbg's lists of ends, which takes less time than with plain ones.
fn counted(case: CardCase, reading: &Reading, counts: &mut Counts) -> Result<(), Difference> {
    let munchalep = Answer::of_call(&case);
    if munchalep != case.says(reading, judge::ends_of) {
        return Err(Difference::of(case));
    }
    let entry = match case.call {
        Call::Begin { .. } => Entry::CardBegin,
        Call::Add { .. } => Entry::CardAdd,
        Call::Read => Entry::CardRead,
        Call::Position { .. } => Entry::CardPosition,
    };
    counts.add(entry, munchalep.packed, true);
    Ok(())
}

/// A call, of whatever card.
#[derive(Clone, Copy)]
enum Call {
    /// In a buffer of its own.
    Begin {
        board: Board,
        room: usize,
    },
    /// The buffer has the card's bytes and others after them, or as many of them as it has room
    /// for; `length` is what is told to be the card's.
    Add {
        room: usize,
        length: usize,
        dice: (usize, usize),
        end: Board,
    },
    Read,
    Position {
        number: usize,
    },
}

/// A call of a card.
#[derive(Clone)]
struct CardCase {
    card: Vec<u8>,
    call: Call,
}

impl CardCase {
    /// The board that is given; an empty one where none is.
    fn board(&self) -> Board {
        match self.call {
            Call::Begin { board, .. } => board,
            Call::Add { end, .. } => end,
            Call::Read | Call::Position { .. } => [0; 26],
        }
    }

    /// The buffer that is lent, before the call.
    fn buffer(&self) -> Vec<u8> {
        let with_room = |bytes: &[u8], room: usize| {
            let mut buffer = bytes.to_vec();
            buffer.resize(room, PATTERN as u8);
            buffer
        };
        match self.call {
            Call::Begin { room, .. } => with_room(&[], room),
            Call::Add { room, .. } => with_room(&self.card, room),
            Call::Read | Call::Position { .. } => Vec::new(),
        }
    }

    /// What the card that is told is read as.
    fn reading(&self, lister: Lister) -> Reading {
        match self.call {
            Call::Begin { .. } => NO_CARD,
            Call::Add { length, .. } => {
                self.buffer().get(..length).map_or(NO_CARD, |card| card::read(card, lister))
            }
            Call::Read | Call::Position { .. } => card::read(&self.card, lister),
        }
    }

    /// The document's answer, where the reading is at hand.
    fn says(&self, reading: &Reading, lister: Lister) -> Answer {
        let mut buffer = self.buffer();
        let done = match self.call {
            Call::Begin { board, .. } => card::begun(&mut buffer, &board),
            Call::Add { length, dice, end, .. } => {
                card::added(&mut buffer, length, reading, dice, &end, lister)
            }
            Call::Read => reading.as_ref().map(|game| game.turns.len()).map_err(Clone::clone),
            Call::Position { number } => match card::position(reading, number) {
                Ok(board) => return Answer::position(board),
                Err(refused) => Err(refused),
            },
        };
        match done {
            Ok(value) => Answer::value(value, buffer),
            Err(refused) => Answer::refused(refused, buffer),
        }
    }

    /// The document's answer, with whoever's lists of ends.
    fn says_with(&self, lister: Lister) -> Answer {
        self.says(&self.reading(lister), lister)
    }

    /// The same call of a smaller card: a buffer has as many bytes more or fewer than the card.
    fn with_card(&self, card: Vec<u8>) -> CardCase {
        let fewer = self.card.len() - card.len();
        let call = match self.call {
            Call::Add { room, length, dice, end } => Call::Add {
                room: room.saturating_sub(fewer),
                length: length.saturating_sub(fewer),
                dice,
                end,
            },
            call => call,
        };
        CardCase { card, call }
    }
}

impl Case for CardCase {
    type Answer = Answer;

    /// The plain answer takes plain lists of ends, and wildbg's those of wildbg.
    fn answers(&self) -> Answers<Answer> {
        Answers {
            munchalep: Answer::of_call(self),
            plain: self.says_with(plain::ends_of),
            wildbg: Some(self.says_with(judge::ends_of)),
        }
    }

    fn smaller(&self) -> Vec<CardCase> {
        let cards = damaged::smaller(&self.card).into_iter();
        let mut smaller: Vec<_> = cards.map(|card| self.with_card(card)).collect();
        let calls: Vec<Call> = match self.call {
            Call::Begin { board, room } => {
                let boards = smaller::boards(&board).into_iter();
                let boards = boards.map(|board| Call::Begin { board, room });
                boards
                    .chain(smaller::numbers(room).map(|room| Call::Begin { board, room }))
                    .collect()
            }
            Call::Add { room, length, dice, end } => {
                let rooms =
                    smaller::numbers(room).map(|room| Call::Add { room, length, dice, end });
                let lengths =
                    smaller::numbers(length).map(|length| Call::Add { room, length, dice, end });
                rooms.chain(lengths).collect()
            }
            Call::Read => Vec::new(),
            Call::Position { number } => {
                smaller::numbers(number).map(|number| Call::Position { number }).collect()
            }
        };
        smaller.extend(calls.into_iter().map(|call| CardCase { card: self.card.clone(), call }));
        smaller
    }

    fn input_text(&self) -> String {
        let call = match self.call {
            Call::Begin { board, room } => {
                return format!(
                    "  card_begin in {room} bytes of the board {}\n  entries   {board:?}",
                    BoardText(&board)
                );
            }
            Call::Add { room, length, dice: (die1, die2), end } => format!(
                "card_add of {die1}-{die2} in {room} bytes, length told {length}, to the board {}",
                BoardText(&end)
            ),
            Call::Read => "card_read".into(),
            Call::Position { number } => format!("card_position {number}"),
        };
        format!("  {call}\n  the card, {} bytes:\n{}", self.card.len(), answer::hex(&self.card))
    }
}
