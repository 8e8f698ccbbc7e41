//! The entries of `include/munchalep.h` as they are, for callers that want the packed answer or
//! lend the memory themselves.
//!
//! Each answers the refusal number (0: none) in the low byte and a value above it, and writes to
//! lent memory only where it refuses nothing. Numbers are 64 bits on every processor, as the header
//! has them.

use crate::{Board, Key, Step};

/// The ends of a roll, 26 bytes each, to `list`; their number, as the value.
pub fn munchalep_list(board: &Board, die1: u64, die2: u64, list: &mut [u8]) -> u64 {
    unsafe extern "C" {
        fn munchalep_list(board: &Board, die1: u64, die2: u64, list: *mut u8, length: u64) -> u64;
    }
    // SAFETY: this is the header's declaration. A slice's pointer is not null, even where its
    // length is 0, and `length` bytes from there on are lent for the call alone.
    unsafe { munchalep_list(board, die1, die2, list.as_mut_ptr(), list.len() as u64) }
}

/// The steps from `old` to an end of a roll, both seen from the side that moves, to `row`; their
/// number, as the value.
pub fn munchalep_recover(old: &Board, end: &Board, die1: u64, die2: u64, row: &mut [Step]) -> u64 {
    unsafe extern "C" {
        fn munchalep_recover(
            old: &Board,
            end: &Board,
            die1: u64,
            die2: u64,
            row: *mut Step,
            places: u64,
        ) -> u64;
    }
    // SAFETY: as of `munchalep_list`, with steps lent, which are laid out as the header's.
    unsafe { munchalep_recover(old, end, die1, die2, row.as_mut_ptr(), row.len() as u64) }
}

/// The inputs of the contact net, to `inputs`.
pub fn munchalep_contact_inputs(board: &Board, inputs: &mut [f32]) -> u64 {
    unsafe extern "C" {
        fn munchalep_contact_inputs(board: &Board, inputs: *mut f32, length: u64) -> u64;
    }
    // SAFETY: as of `munchalep_list`, with floats lent.
    unsafe { munchalep_contact_inputs(board, inputs.as_mut_ptr(), inputs.len() as u64) }
}

/// The inputs of the race net, to `inputs`.
pub fn munchalep_race_inputs(board: &Board, inputs: &mut [f32]) -> u64 {
    unsafe extern "C" {
        fn munchalep_race_inputs(board: &Board, inputs: *mut f32, length: u64) -> u64;
    }
    // SAFETY: as of `munchalep_list`, with floats lent.
    unsafe { munchalep_race_inputs(board, inputs.as_mut_ptr(), inputs.len() as u64) }
}

/// Begins a card in `buffer`; its length, as the value.
pub fn munchalep_card_begin(board: &Board, buffer: &mut [u8]) -> u64 {
    unsafe extern "C" {
        fn munchalep_card_begin(board: &Board, buffer: *mut u8, room: u64) -> u64;
    }
    // SAFETY: as of `munchalep_list`.
    unsafe { munchalep_card_begin(board, buffer.as_mut_ptr(), buffer.len() as u64) }
}

/// Adds a turn to the card in the first `length` bytes of `buffer`; its new length, as the value.
pub fn munchalep_card_add(
    buffer: &mut [u8],
    length: u64,
    die1: u64,
    die2: u64,
    end: &Board,
) -> u64 {
    unsafe extern "C" {
        fn munchalep_card_add(
            buffer: *mut u8,
            room: u64,
            length: u64,
            die1: u64,
            die2: u64,
            end: &Board,
        ) -> u64;
    }
    // SAFETY: as of `munchalep_list`. The card's length is any number: one above the buffer's is
    // refused.
    unsafe {
        munchalep_card_add(
            buffer.as_mut_ptr(),
            buffer.len() as u64,
            length,
            die1,
            die2,
            end,
        )
    }
}

/// Reads a card; the number of its turns, as the value.
pub fn munchalep_card_read(card: &[u8]) -> u64 {
    unsafe extern "C" {
        fn munchalep_card_read(card: *const u8, length: u64) -> u64;
    }
    // SAFETY: as of `munchalep_list`, with bytes that are only read.
    unsafe { munchalep_card_read(card.as_ptr(), card.len() as u64) }
}

/// The position of a card with a number, to `out`.
pub fn munchalep_card_position(card: &[u8], number: u64, out: &mut Board) -> u64 {
    unsafe extern "C" {
        fn munchalep_card_position(
            card: *const u8,
            length: u64,
            number: u64,
            out: &mut Board,
        ) -> u64;
    }
    // SAFETY: as of `munchalep_card_read`, and `out` overlaps nothing else.
    unsafe { munchalep_card_position(card.as_ptr(), card.len() as u64, number, out) }
}

// SAFETY: these are the header's declarations. A reference is not null and the array types fix the
// lengths; a `&mut` overlaps nothing else. The header asks no more.
unsafe extern "C" {
    /// Refuses a board that is not accepted.
    pub safe fn munchalep_check(board: &Board) -> u64;

    /// The board seen from the other side, to `out`.
    pub safe fn munchalep_switch(board: &Board, out: &mut Board) -> u64;

    /// The board after one checker of x moved from `from` by `die`, to `out`.
    pub safe fn munchalep_step(board: &Board, from: u64, die: u64, out: &mut Board) -> u64;

    /// The number of the result or phase, as the value.
    pub safe fn munchalep_result(board: &Board) -> u64;

    /// The number of ends of a roll, as the value.
    pub safe fn munchalep_count(board: &Board, die1: u64, die2: u64) -> u64;

    /// The end with a number, to `out`.
    pub safe fn munchalep_end(
        board: &Board,
        die1: u64,
        die2: u64,
        number: u64,
        out: &mut Board,
    ) -> u64;

    /// The board's key, to `key`.
    pub safe fn munchalep_key(board: &Board, key: &mut Key) -> u64;

    /// The board that has the key, to `out`.
    pub safe fn munchalep_board_of_key(key: &Key, out: &mut Board) -> u64;

    /// The contact net's input that has the place, to `out`.
    pub safe fn munchalep_contact_input(board: &Board, place: u64, out: &mut f32) -> u64;

    /// The race net's input that has the place, to `out`.
    pub safe fn munchalep_race_input(board: &Board, place: u64, out: &mut f32) -> u64;
}
