// wildbg's conversion.rs, unchanged, and what lends two functions that are private to it: its
// public ones have the key as base64 text, so they tell the time of base64 too.

include!(concat!(env!("WILDBG"), "/crates/engine/src/position/conversion.rs"));

impl Position {
    pub fn key(&self) -> [u8; 10] {
        self.encode()
    }

    pub fn of_key(key: [u8; 10]) -> Position {
        Position::decode(key)
    }
}
