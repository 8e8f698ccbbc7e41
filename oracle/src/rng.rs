//! Random numbers that a seed decides, the same on every machine.

use munchalep::Board;

/// SplitMix64.
pub struct Rng(u64);

impl Rng {
    /// Stream `number` of a seed: streams of one seed have nothing to do with each other.
    pub fn new(seed: u64, number: u64) -> Rng {
        Rng(mixed(mixed(seed) ^ number))
    }

    /// The stream that a board decides.
    pub fn of_board(board: &Board) -> Rng {
        let number = |number: u64, &entry: &i8| {
            number.wrapping_mul(0x100_0000_01B3) ^ u64::from(entry as u8)
        };
        Rng::new(0, board.iter().fold(0, number))
    }

    pub fn next(&mut self) -> u64 {
        self.0 = self.0.wrapping_add(0x9E37_79B9_7F4A_7C15);
        mixed(self.0)
    }

    /// A number below `limit`, which is not 0.
    pub fn below(&mut self, limit: usize) -> usize {
        ((u128::from(self.next()) * limit as u128) >> 64) as usize
    }

    /// A number from `low` to `high`.
    pub fn between(&mut self, low: usize, high: usize) -> usize {
        low + self.below(high - low + 1)
    }

    /// Yes once in `times`.
    pub fn once_in(&mut self, times: usize) -> bool {
        self.below(times) == 0
    }

    /// One of `items`, which are not none.
    pub fn pick<T: Copy>(&mut self, items: &[T]) -> T {
        items[self.below(items.len())]
    }
}

fn mixed(mut z: u64) -> u64 {
    z = (z ^ (z >> 30)).wrapping_mul(0xBF58_476D_1CE4_E5B9);
    z = (z ^ (z >> 27)).wrapping_mul(0x94D0_49BB_1331_11EB);
    z ^ (z >> 31)
}
