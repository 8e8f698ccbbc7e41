//! Games, played at random in several ways, and their cards.

use super::Reading;
use crate::boards::board;
use crate::judge;
use crate::plain;
use crate::plain::card::{self, Game, MOST_TURNS, START, TURN, Turn};
use crate::rng::Rng;
use munchalep::Board;

/// A game and its card.
pub struct Played {
    pub card: Vec<u8>,
    pub game: Game,
}

/// Chooses one of a roll's ends, sides switched, by its number.
type Player = fn(&[Board], &mut Rng) -> usize;

const PLAYERS: [Player; 5] = [anyhow, hitting, careful, |_, _| 0, |ends, _| ends.len() - 1];

/// Any end, one as likely as another.
fn anyhow(ends: &[Board], rng: &mut Rng) -> usize {
    rng.below(ends.len())
}

/// An end that leaves the most checkers on the other side's bar: such games last long.
fn hitting(ends: &[Board], rng: &mut Rng) -> usize {
    best(ends, rng, |end| end[25])
}

/// An end with few single checkers, the more so where it hits.
pub fn careful(ends: &[Board], rng: &mut Rng) -> usize {
    best(ends, rng, |end| {
        2 * end[25].min(1) - end.iter().filter(|&&entry| entry == -1).count() as i8
    })
}

/// One of the ends that have the highest worth.
fn best(ends: &[Board], rng: &mut Rng, worth: impl Fn(&Board) -> i8) -> usize {
    let highest = ends.iter().map(&worth).max().expect("a roll has an end");
    let best: Vec<usize> = (0..ends.len()).filter(|&i| worth(&ends[i]) == highest).collect();
    rng.pick(&best)
}

/// A game from `start` to its finish, or of as many turns as a card has. Both sides play in the same
/// way.
pub fn played(start: &Board, rng: &mut Rng) -> Played {
    let player = rng.pick(&PLAYERS);
    played_by(player, start, rng)
}

pub fn played_by(player: Player, start: &Board, rng: &mut Rng) -> Played {
    let record = card::start_record(start).expect("a game can start here");
    let game = Game { positions: vec![*start], turns: Vec::new() };
    let mut played = Played { card: record.to_vec(), game };
    while played.game.turns.len() < MOST_TURNS && !card::is_finished(played.game.last()) {
        let dice = (rng.between(1, 6), rng.between(1, 6));
        let ends = judge::ends_of(played.game.last(), dice);
        let number = player(&ends, rng);
        let byte = plain::dice_byte(dice).expect("the dice are a roll");
        played.card.extend(card::turn_record(byte, number));
        played.game.turns.push(Turn { byte, number, ends: ends.len() });
        played.game.positions.push(ends[number]);
    }
    played
}

impl Played {
    /// The first turns of the game.
    pub fn cut(&self, turns: usize) -> Played {
        let game = Game {
            positions: self.game.positions[..=turns].to_vec(),
            turns: self.game.turns[..turns].to_vec(),
        };
        Played { card: self.card[..START + turns * TURN].to_vec(), game }
    }

    /// What another card is read as. Records that both begin with are not read again.
    pub fn read(&self, card: &[u8]) -> Reading {
        if card.len() < START || card[..START] != self.card[..START] {
            return card::read(card, judge::ends_of);
        }
        let records = turn_records(card).zip(turn_records(&self.card));
        let same = records.take_while(|(one, other)| one == other).count();
        card::read_on(self.cut(same).game, card, judge::ends_of)
    }
}

/// The whole turn records of a card with a whole start record.
fn turn_records(card: &[u8]) -> impl Iterator<Item = &[u8]> {
    card[START..].chunks_exact(TURN)
}

/// Both sides are on the bar and neither can enter: a game without end, one end a turn.
pub fn shut_out() -> Board {
    let home = |first: usize, checkers: i8| (first..first + 6).map(move |i| (i, checkers));
    board(&home(1, 2).chain(home(19, -2)).chain([(25, 1), (0, -1)]).collect::<Vec<_>>())
}
