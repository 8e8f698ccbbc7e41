//! Keys to read, most of which are no board's.

use crate::plain::key::{BITS, RUNS, runs, written};
use crate::rng::Rng;
use munchalep::{Board, Key};

/// Keys made from a board: first its own, accepted or not; then the same with a bit turned round,
/// with x on other points, with bits after it, and two that have nothing to do with it.
pub fn of_board(board: &Board, rng: &mut Rng) -> Vec<Key> {
    let own = written(&runs(board));
    vec![
        own,
        turned_round(&own, rng.below(BITS)),
        x_elsewhere(board, rng),
        bits_after(&own, rng),
        some_ones(rng),
        any_bytes(rng),
    ]
}

/// The keys that have one bit of `key` turned round.
pub fn damages(key: &Key) -> [Key; BITS] {
    std::array::from_fn(|k| turned_round(key, k))
}

fn turned_round(key: &Key, k: usize) -> Key {
    key_of(number_of(key) ^ 1 << k)
}

/// Often both sides on one point.
fn x_elsewhere(board: &Board, rng: &mut Rng) -> Key {
    let mut runs = runs(board);
    runs[RUNS / 2..].rotate_left(rng.below(RUNS / 2));
    written(&runs)
}

/// Often bits after the last end bit.
fn bits_after(key: &Key, rng: &mut Rng) -> Key {
    let bits = if rng.once_in(2) { 1 } else { u128::from(rng.next()) };
    key_of(number_of(key) | bits << rng.between(RUNS, BITS - 1))
}

fn some_ones(rng: &mut Rng) -> Key {
    let ones = rng.pick(&[1, 2, 4, 8, 16, 24, 30, 32, 36]);
    key_of((0..ones).fold(0, |bits, _| bits | 1 << rng.below(BITS)))
}

fn any_bytes(rng: &mut Rng) -> Key {
    key_of(u128::from(rng.next()) << 64 | u128::from(rng.next()))
}

/// Keys that are smaller numbers: one 1 is left out, or comes one bit earlier.
pub fn smaller(key: &Key) -> Vec<Key> {
    let number = number_of(key);
    let has = |k: usize| number >> k & 1 == 1;
    let ones = (0..BITS).filter(|&k| has(k));
    let earlier = (1..BITS).filter(|&k| has(k) && !has(k - 1));
    let left_out = ones.map(|k| number ^ 1 << k);
    left_out.chain(earlier.map(|k| number ^ 3 << (k - 1))).map(key_of).collect()
}

/// The number whose bit k is bit k of the key.
fn number_of(key: &Key) -> u128 {
    let mut bytes = [0; 16];
    bytes[..key.len()].copy_from_slice(key);
    u128::from_le_bytes(bytes)
}

/// The key whose bit k is bit k of the number; bits from 80 on are left out.
fn key_of(number: u128) -> Key {
    let [key @ .., _, _, _, _, _, _] = number.to_le_bytes();
    key
}
