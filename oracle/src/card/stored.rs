//! Cards as data, for a program that replays their answers where there is no Rust.
//!
//! A record is 89 bytes and a card, numbers low byte first, and nothing stands between records:
//!
//! | bytes | what |
//! |---|---|
//! | 2 | the card's length, at most 5,100 |
//! | 1 | the refusal number of reading it, 0 for none |
//! | 2 | the value of reading it: the number of turns, or the first byte of the refused record |
//! | 3 × 2, 26 | a position's number, and `out` after it was asked: the board, or 26 times hex 55 |
//! | as told | the card |
//!
//! What asking a position answers follows: the refusal of reading with its value, 36 for a number
//! above the number of turns, else 0.

use super::answer::Answer;
use super::games::{self, Played};
use super::{Call, CardCase, damaged, document};
use crate::answer::Lendable;
use crate::boards::{kinds, sample};
use crate::difference::{Case, Difference};
use crate::plain::card::{START, TURN};
use crate::rng::Rng;
use crate::{judge, plain};
use munchalep::Board;
use std::collections::{BTreeMap, HashSet};

/// The longest card that is stored.
const MOST: usize = 5_100;

/// Positions asked of each card.
const ASKED: usize = 3;

/// Games of boards of each kind, and how many turns of them are stored at most; damaged cards of
/// each.
const OF_KIND: usize = 8;
const TURNS: usize = 50;
const DAMAGED: usize = 5;

/// Games from the start board that are stored whole, and those with at most so many turns.
const WHOLE: usize = 12;
const WHOLE_TURNS: usize = 160;

/// Answers of each sort, at least.
const OF_EACH: usize = 4;

/// Turns of the game that is shown, at least and at most.
const SHOWN: std::ops::RangeInclusive<usize> = 50..=80;

/// The records of a seed's sample, on all of which the sides agree.
pub fn records(seed: u64) -> Result<Vec<u8>, Difference> {
    let mut rng = Rng::new(seed, u64::MAX);
    let (mut records, mut met) = (Vec::new(), HashSet::new());
    for card in cards(seed, &mut rng) {
        if card.len() <= MOST && met.insert(card.clone()) {
            records.push(record(&card, &mut rng)?);
        }
    }
    assert_every_answer(&records);
    Ok(records.concat())
}

/// The card of a finished game from the start board, as players might play it.
pub fn game(seed: u64) -> Result<Vec<u8>, Difference> {
    let mut rng = Rng::new(seed, u64::MAX);
    let mut game = || games::played_by(games::careful, &plain::start(), &mut rng);
    let is_shown = |played: &Played| SHOWN.contains(&played.game.turns.len());
    let played =
        std::iter::repeat_with(&mut game).find(is_shown).expect("there is no end of games");
    agreed(&played.card, Call::Read)?;
    agreed(&played.card, Call::Position { number: played.game.turns.len() })?;
    Ok(played.card)
}

/// The text of that game's card, by document 01's words alone.
pub fn game_text(seed: u64) -> Result<Vec<u8>, Difference> {
    Ok(plain::card::text(&game(seed)?, judge::ends_of).into_bytes())
}

/// The document's cards; games from the start board; games from boards of every kind, or their
/// first turns; and damaged ones.
fn cards(seed: u64, rng: &mut Rng) -> Vec<Vec<u8>> {
    let mut cards = document::cards();
    let mut whole = 0;
    while whole < WHOLE {
        let played = games::played(&plain::start(), rng);
        if played.game.turns.len() <= WHOLE_TURNS {
            whole += 1;
            cards.push(damaged::some(&played, rng));
            cards.push(played.card);
        }
    }
    for kind in 0..kinds().len() {
        let boards = sample(seed, kind, 4 * OF_KIND).into_iter();
        for board in boards.filter(|board| plain::started(board).is_ok()).take(OF_KIND) {
            let mut played = games::played(&board, rng);
            let turns = rng.between(1, played.game.turns.len()).min(TURNS);
            played = played.cut(turns);
            cards.extend((0..DAMAGED).map(|_| damaged::some(&played, rng)));
            cards.push(played.card);
        }
    }
    cards
}

/// Every answer is there, and none is rare.
fn assert_every_answer(records: &[Vec<u8>]) {
    let mut answers: BTreeMap<u8, usize> = BTreeMap::new();
    for record in records {
        *answers.entry(record[2]).or_default() += 1;
    }
    let met: Vec<_> = answers.keys().copied().collect();
    let all = [0, 5, 6, 11, 15, 16, 17, 18, 20, 21, 22, 23, 24, 25, 26];
    assert_eq!(met, all, "an answer is missing");
    let is_often = |(&refusal, &records): (&u8, &usize)| records >= OF_EACH || refusal == 22;
    assert!(answers.iter().all(is_often), "an answer is rare: {answers:?}");
}

/// The record of reading a card and asking some positions of it.
fn record(card: &[u8], rng: &mut Rng) -> Result<Vec<u8>, Difference> {
    let read = agreed(card, Call::Read)?;
    let (refusal, value) = (read.packed as u8, (read.packed >> 8) as u16);
    let turns = card.len().saturating_sub(START) / TURN;
    let numbers: [usize; ASKED] = [rng.below(turns + 1), turns, turns + rng.below(2)];
    let mut record = (card.len() as u16).to_le_bytes().to_vec();
    record.push(refusal);
    record.extend(value.to_le_bytes());
    for number in numbers {
        let asked = agreed(card, Call::Position { number })?;
        record.extend((number as u16).to_le_bytes());
        record.extend(asked.out.unwrap_or(Board::BEFORE).map(|entry| entry as u8));
    }
    record.extend(card);
    Ok(record)
}

/// What the sides answer to a call, if it is the same.
fn agreed(card: &[u8], call: Call) -> Result<Answer, Difference> {
    let case = CardCase { card: card.to_vec(), call };
    let answers = case.answers();
    if answers.agree() { Ok(answers.decided()) } else { Err(Difference::of(case)) }
}
