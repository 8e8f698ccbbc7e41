//! Answers stored as data.

use crate::difference::Difference;
use crate::options::Options;
use crate::{card, dice, inputs, key, moves, position, recovery};
use std::collections::BTreeMap;
use std::fs;

/// Makes the data of a seed.
pub type Maker = fn(u64) -> Result<Vec<u8>, Difference>;

/// The options that store data, each with its maker.
pub const STORES: [(&str, Maker); 11] = [
    ("--store", position::stored::records),
    ("--store-dice", |_| dice::stored()),
    ("--store-moves", moves::stored::records),
    ("--store-lists", moves::stored::lists),
    ("--store-key", key::stored::records),
    ("--store-gnubg", key::gnubg::records),
    ("--store-inputs", inputs::stored::records),
    ("--store-recovery", recovery::stored::records),
    ("--store-card", card::stored::records),
    ("--store-game", card::stored::game),
    ("--store-game-text", card::stored::game_text),
];

/// Writes the files that are asked for. Answers what it wrote, or what failed.
pub fn run(options: &Options) -> Result<String, String> {
    let mut wrote = Vec::new();
    for (make, file) in &options.stores {
        let data = make(options.seed).map_err(|difference| difference.to_string())?;
        let name = file.display();
        fs::write(file, &data).map_err(|error| format!("{name}: {error}"))?;
        wrote.push(format!("{name}: {} bytes, seed {}", data.len(), options.seed));
    }
    Ok(wrote.join("\n"))
}

/// Every answer, told by what was asked and the refusal, is among the stored ones, and none is rare.
pub fn assert_every_answer(
    stored: impl Iterator<Item = (u8, u8)>,
    all: &[(u8, u8)],
    of_each: usize,
) {
    let mut answers: BTreeMap<(u8, u8), usize> = BTreeMap::new();
    for answer in stored {
        *answers.entry(answer).or_default() += 1;
    }
    let met: Vec<_> = answers.keys().copied().collect();
    assert_eq!(met, all, "an answer is missing");
    assert!(answers.values().all(|&records| records >= of_each), "an answer is rare: {answers:?}");
}
