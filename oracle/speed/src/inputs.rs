//! The inputs of the nets: a slice that is lent again and again and filled with those of each
//! board.

use crate::corpus::judged;
use engine::inputs::{ContactInputsGen, InputsGen, RaceInputsGen};
use engine::position::Position;
use munchalep::{Board, CONTACT_INPUTS, RACE_INPUTS, raw};
use std::hint::black_box;

/// The routines by name, wildbg's first: of a `Position` that it has already, and of 26 entries,
/// which it has to judge as the library does.
pub const NAMES: [&str; 3] = ["wildbg, of a position", "wildbg, of 26 entries", "munchalep"];

/// A net with both ways to fill a slice with its inputs.
pub struct Net {
    pub name: &'static str,
    pub inputs: usize,
    wildbg: fn(&Position, &mut [f32]),
    munchalep: fn(&Board, &mut [f32]) -> u64,
}

pub const NETS: [Net; 2] = [
    Net {
        name: "contact",
        inputs: CONTACT_INPUTS,
        wildbg: |position, inputs| ContactInputsGen {}.fill_inputs(position, inputs),
        munchalep: raw::munchalep_contact_inputs,
    },
    Net {
        name: "race",
        inputs: RACE_INPUTS,
        wildbg: |position, inputs| RaceInputsGen {}.fill_inputs(position, inputs),
        munchalep: raw::munchalep_race_inputs,
    },
];

impl Net {
    /// Runs the routine with a number. Answers how many boards it took.
    pub fn run(&self, routine: usize, boards: &[(Position, Board)]) -> usize {
        let mut inputs = vec![0.0; self.inputs];
        for (position, board) in boards {
            match routine {
                0 => (self.wildbg)(black_box(position), &mut inputs),
                1 => (self.wildbg)(&judged(black_box(board)), &mut inputs),
                _ => assert_eq!((self.munchalep)(black_box(board), &mut inputs), 0),
            }
            black_box(&inputs);
        }
        boards.len()
    }

    /// Whether both fill in the same on every board.
    pub fn agree(&self, boards: &[(Position, Board)]) -> bool {
        let (mut one, mut other) = (vec![0.0; self.inputs], vec![0.0; self.inputs]);
        boards.iter().all(|(position, board)| {
            (self.wildbg)(position, &mut one);
            (self.munchalep)(board, &mut other) == 0 && one == other
        })
    }
}
