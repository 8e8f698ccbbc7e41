//! wildbg's dice as data, for a program that replays them where there is no Rust. The C interface
//! has no entry for dice, so wildbg is held to document 01 alone.
//!
//! The data, numbers low byte first:
//!
//! | bytes | what |
//! |---|---|
//! | 21 × 4 | each roll: weight × 256 + dice byte |
//! | 441 × 4 | each pair of rolls: weight × 65536 + first dice byte × 256 + second |
//! | 81 | for a first die 0 to 8, for a second die 0 to 8: the dice byte, 0 where one is refused |
//! | 256 | for each byte: 1 if it is the dice byte of a roll, else 0 |

use crate::difference::Difference;
use crate::plain;
use engine::dice::{ALL_21, ALL_441, Dice};

/// The data, on which wildbg and document 01 agree.
pub fn stored() -> Result<Vec<u8>, Difference> {
    let (wildbg, plain) = (wildbgs_data(), plain_data());
    if wildbg == plain {
        return Ok(wildbg);
    }
    let same = wildbg.iter().zip(&plain).take_while(|(wildbg, plain)| wildbg == plain).count();
    Err(Difference(format!("DIFFERENCE in the dice data, from byte {same} on")))
}

fn wildbgs_data() -> Vec<u8> {
    let rolls = ALL_21.map(|(dice, weight)| (weight as u32, byte_of(dice)));
    let pairs =
        ALL_441.map(|([first, second], weight)| (weight as u32, byte_of(first), byte_of(second)));
    data(&rolls, &pairs, |dice| Dice::try_from(dice).ok().map(byte_of))
}

fn byte_of(dice: Dice) -> u8 {
    let (large, small) = match dice {
        Dice::Double(die) => (die, die),
        Dice::Mixed(dice) => (dice.big(), dice.small()),
    };
    (large * 16 + small) as u8
}

fn plain_data() -> Vec<u8> {
    let rolls = plain::rolls();
    data(&rolls, &plain::pairs(), |dice| plain::dice_byte(dice).ok())
}

fn data(
    rolls: &[(u32, u8)],
    pairs: &[(u32, u8, u8)],
    byte_of: impl Fn((usize, usize)) -> Option<u8>,
) -> Vec<u8> {
    let mut data = Vec::new();
    for &(weight, byte) in rolls {
        data.extend((weight * 256 + u32::from(byte)).to_le_bytes());
    }
    for &(weight, first, second) in pairs {
        let bytes = u32::from(first) * 256 + u32::from(second);
        data.extend((weight * 65536 + bytes).to_le_bytes());
    }
    for first in 0..=8 {
        data.extend((0..=8).map(|second| byte_of((first, second)).unwrap_or(0)));
    }
    let is_roll = |byte| rolls.iter().any(|&(_, of_roll)| of_roll == byte);
    data.extend((0..=255).map(|byte| u8::from(is_roll(byte))));
    data
}
