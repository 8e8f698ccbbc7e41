//! A game of two turns, from the roll to the card that the players take home: `c/example.c` has the
//! same game in C.

use munchalep::{
    Board, CARD_BYTES, MOST_STEPS, Refusal, Step, card_add, card_begin, card_position, card_read,
    count, end, key, recover, switch,
};

const START: Board = [
    0, -2, 0, 0, 0, 0, 5, 0, 3, 0, 0, 0, -5, 5, 0, 0, 0, -3, 0, -5, 0, 0, 0, 0, 2, 0,
];

/// The first turn, 6-5: the last of its ends, as the other side sees it.
fn first_turn() -> Result<Board, Refusal> {
    let ends = count(&START, 6, 5)?;
    let end = end(&START, 6, 5, ends - 1)?;
    // Steps are asked for as the mover sees both boards.
    let mut row = [Step::default(); MOST_STEPS];
    let steps = recover(&START, &switch(&end)?, 6, 5, &mut row)?;
    println!("6-5 has {ends} ends; played: {:?}", &row[..steps]);
    println!("key: {:02X?}", key(&end)?);
    Ok(end)
}

/// The second turn, 3-1 by the other side: 8/5 6/5, as the board's sensors show it to the mover.
fn second_turn(board: &Board) -> Result<Board, Refusal> {
    let mut moved = *board;
    moved[8] -= 1;
    moved[6] -= 1;
    moved[5] += 2;
    // A card takes the end as the other side sees it.
    switch(&moved)
}

fn main() -> Result<(), Refusal> {
    let first = first_turn()?;
    let second = second_turn(&first)?;

    // Each call answers the card's length, which the next one is given.
    let mut buffer = [0; CARD_BYTES];
    let length = card_begin(&START, &mut buffer)?;
    let length = card_add(&mut buffer, length, 6, 5, &first)?;
    let length = card_add(&mut buffer, length, 3, 1, &second)?;
    let card = &buffer[..length];
    println!("card: {card:02X?}");

    println!("turns: {}", card_read(card)?);
    assert_eq!(card_position(card, 0)?, START);
    assert_eq!(card_position(card, 1)?, first);
    assert_eq!(card_position(card, 2)?, second);

    // A card cut short is refused, and the refusal carries the byte offset of the refused record.
    let refusal = card_read(&card[..length - 1]).unwrap_err();
    let Refusal { number, carried } = refusal;
    println!("without its last byte: refused, {number} at byte {carried}: {refusal}");
    Ok(())
}
