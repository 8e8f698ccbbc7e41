//! Cards that are no game's, most of them, made from cards that are.

use super::games::Played;
use crate::judge;
use crate::plain;
use crate::plain::card::{self, START, TURN, start_record, turn_record};
use crate::plain::key::BITS;
use crate::rng::Rng;

/// Damages a card.
type Damage = fn(Vec<u8>, &Played, &mut Rng) -> Vec<u8>;

const DAMAGES: [Damage; 16] = [
    byte_changed,
    bit_turned,
    cut,
    bytes_after,
    mark_changed,
    mark_changed,
    dice_changed,
    number_changed,
    number_changed,
    key_bit_turned,
    start_changed,
    turn_after_the_last,
    record_doubled,
    record_dropped,
    records_swapped,
    any_bytes,
];

/// The card of a game with some damage, seldom with two.
pub fn some(played: &Played, rng: &mut Rng) -> Vec<u8> {
    let card = rng.pick(&DAMAGES)(played.card.clone(), played, rng);
    if card.len() < START + TURN || !rng.once_in(8) {
        return card;
    }
    byte_changed(card, played, rng)
}

/// Every card with one byte changed, and every beginning of the card.
pub fn all(card: &[u8]) -> impl Iterator<Item = Vec<u8>> {
    let changed = |place: usize, byte: u8| {
        let mut changed = card.to_vec();
        changed[place] = byte;
        changed
    };
    let others = move |place: usize| (0..=255).filter(move |&byte| byte != card[place]);
    let changes =
        (0..card.len()).flat_map(move |place| others(place).map(move |byte| changed(place, byte)));
    changes.chain((0..card.len()).map(|length| card[..length].to_vec()))
}

/// Where the record of some turn begins.
fn some_turn(played: &Played, rng: &mut Rng) -> usize {
    START + TURN * rng.below(played.game.turns.len())
}

fn byte_changed(mut card: Vec<u8>, _: &Played, rng: &mut Rng) -> Vec<u8> {
    let place = rng.below(card.len());
    card[place] = rng.next() as u8;
    card
}

fn bit_turned(mut card: Vec<u8>, _: &Played, rng: &mut Rng) -> Vec<u8> {
    let place = rng.below(card.len());
    card[place] ^= 1 << rng.below(8);
    card
}

fn cut(mut card: Vec<u8>, _: &Played, rng: &mut Rng) -> Vec<u8> {
    card.truncate(rng.below(card.len()));
    card
}

fn bytes_after(mut card: Vec<u8>, _: &Played, rng: &mut Rng) -> Vec<u8> {
    let mut bytes = turn_record(0x21, 0).to_vec();
    bytes.truncate(rng.between(1, TURN));
    if rng.once_in(2) {
        bytes.fill_with(|| rng.next() as u8);
    }
    card.extend(bytes);
    card
}

fn mark_changed(mut card: Vec<u8>, played: &Played, rng: &mut Rng) -> Vec<u8> {
    let record = if rng.once_in(4) { 0 } else { some_turn(played, rng) };
    let any = rng.next() as u8;
    card[record + rng.below(2)] = rng.pick(&[0x53, 0x54, 0x55, 0x00, 0xFF, any]);
    card
}

/// Another roll, its dice turned round, or no roll.
fn dice_changed(mut card: Vec<u8>, played: &Played, rng: &mut Rng) -> Vec<u8> {
    let byte = &mut card[some_turn(played, rng) + 2];
    let (roll, any) = (rng.pick(&plain::rolls()).1, rng.next() as u8);
    *byte = rng.pick(&[roll, byte.rotate_left(4), 0x00, 0x10, 0x70, 0x71, 0x76, any]);
    card
}

/// Another end's number, the first that is none, and numbers that only one of the two bytes tells
/// from an end's.
fn number_changed(mut card: Vec<u8>, played: &Played, rng: &mut Rng) -> Vec<u8> {
    let turn = rng.below(played.game.turns.len());
    let ends = played.game.turns[turn].ends;
    let number = played.game.turns[turn].number;
    let numbers = [
        rng.below(ends),
        ends - 1,
        ends,
        ends + 1,
        number + 0x100,
        number + 0x4000,
        17_550,
        0xFFFF,
    ];
    let record = START + TURN * turn;
    let number = (rng.pick(&numbers) as u16).to_le_bytes();
    card[record + 3..record + TURN].copy_from_slice(&number);
    card
}

fn key_bit_turned(mut card: Vec<u8>, _: &Played, rng: &mut Rng) -> Vec<u8> {
    let k = rng.below(BITS);
    card[2 + k / 8] ^= 1 << (k % 8);
    card
}

/// Another position's start record, or the key of an empty or a finished board.
fn start_changed(mut card: Vec<u8>, played: &Played, rng: &mut Rng) -> Vec<u8> {
    let position = rng.pick(&played.game.positions);
    match (rng.below(3), start_record(&position)) {
        (0, _) => card[2..START].fill(0),
        (_, Ok(record)) if rng.once_in(2) => card[..START].copy_from_slice(&record),
        _ => {
            let last = plain::key(played.game.last()).expect("a position is accepted");
            card[2..START].copy_from_slice(&last);
        }
    }
    card
}

/// A legal turn, where the game can go on; else a turn after the finish, the record of which is
/// whole, cut, or damaged otherwise.
fn turn_after_the_last(mut card: Vec<u8>, played: &Played, rng: &mut Rng) -> Vec<u8> {
    let byte = rng.pick(&plain::rolls()).1;
    let last = played.game.last();
    let ends = match card::is_finished(last) {
        true => 1,
        false => judge::ends_of(last, plain::dice_of(byte)).len(),
    };
    let mut record = turn_record(byte, rng.below(ends));
    let place = rng.below(2 * TURN);
    if place < TURN {
        record[place] = rng.next() as u8;
    }
    let length = rng.pick(&[1, 2, 4, TURN, TURN, TURN, TURN]);
    card.extend(&record[..length]);
    if rng.once_in(4) {
        card.extend(record);
    }
    card
}

fn record_doubled(mut card: Vec<u8>, played: &Played, rng: &mut Rng) -> Vec<u8> {
    let record = some_turn(played, rng);
    let bytes = card[record..record + TURN].to_vec();
    let at = some_turn(played, rng);
    card.splice(at..at, bytes);
    card
}

fn record_dropped(mut card: Vec<u8>, played: &Played, rng: &mut Rng) -> Vec<u8> {
    let record = some_turn(played, rng);
    card.drain(record..record + TURN);
    card
}

fn records_swapped(mut card: Vec<u8>, played: &Played, rng: &mut Rng) -> Vec<u8> {
    let (one, other) = (some_turn(played, rng), some_turn(played, rng));
    (0..TURN).for_each(|i| card.swap(one + i, other + i));
    card
}

/// Bytes that have nothing to do with the game, but for its start record at times.
fn any_bytes(mut card: Vec<u8>, _: &Played, rng: &mut Rng) -> Vec<u8> {
    let kept = rng.pick(&[0, 2, START, START + 2]);
    card.truncate(kept + rng.below(40));
    card.iter_mut().skip(kept).for_each(|byte| *byte = rng.next() as u8);
    card
}

/// Smaller cards: without the last byte or record, without the later half, and beginning at a later
/// position where the turns up to there are read.
pub fn smaller(card: &[u8]) -> Vec<Vec<u8>> {
    let mut smaller = Vec::new();
    let turns = card.len().saturating_sub(START) / TURN;
    let kept =
        [START + turns / 2 * TURN, card.len().saturating_sub(TURN), card.len().saturating_sub(1)];
    smaller.extend(kept.map(|length| card[..length.min(card.len())].to_vec()));
    for later in [turns / 2, turns / 4, 1] {
        let end = START + later * TURN;
        if later == 0 || end > card.len() {
            continue;
        }
        let start = card::read(&card[..end], judge::ends_of).ok();
        if let Some(record) = start.and_then(|game| start_record(game.last()).ok()) {
            smaller.push([&record, &card[end..]].concat());
        }
    }
    smaller.retain(|smaller| smaller.len() < card.len());
    smaller
}
