//! What the neural nets take of a board.

use crate::refusal::value_of;
use crate::{Board, Refusal, raw};

/// Values that the contact net takes.
pub const CONTACT_INPUTS: usize = 202;

/// Values that the race net takes.
pub const RACE_INPUTS: usize = 186;

/// The inputs of the contact net. Finished and empty boards are taken too. Refuses 1, 2, 3, 4.
pub fn contact_inputs(board: &Board) -> Result<[f32; CONTACT_INPUTS], Refusal> {
    let mut inputs = [0.0; CONTACT_INPUTS];
    value_of(raw::munchalep_contact_inputs(board, &mut inputs)).map(|_| inputs)
}

/// The inputs of the race net. Any accepted board may be given. Refuses 1, 2, 3, 4.
pub fn race_inputs(board: &Board) -> Result<[f32; RACE_INPUTS], Refusal> {
    let mut inputs = [0.0; RACE_INPUTS];
    value_of(raw::munchalep_race_inputs(board, &mut inputs)).map(|_| inputs)
}

/// The one input of the contact net that has a place, counted from 0. Refuses 1, 2, 3, 4, 14.
pub fn contact_input(board: &Board, place: usize) -> Result<f32, Refusal> {
    let mut input = 0.0;
    let answer = raw::munchalep_contact_input(board, place as u64, &mut input);
    value_of(answer).map(|_| input)
}

/// The one input of the race net that has a place, counted from 0. Refuses 1, 2, 3, 4, 14.
pub fn race_input(board: &Board, place: usize) -> Result<f32, Refusal> {
    let mut input = 0.0;
    let answer = raw::munchalep_race_input(board, place as u64, &mut input);
    value_of(answer).map(|_| input)
}

#[cfg(test)]
mod tests {
    use super::*;
    use crate::position::tests::{START, board, number};

    #[test]
    fn five_checkers_on_a_point_are_a_third_value_and_two_more() {
        // x off, o off, four for x's bar, and four for each of points 1 to 5 before point 6.
        let inputs = contact_inputs(&START).unwrap();
        assert_eq!(inputs[26..30], [0.0, 0.0, 1.0, 2.0]);
    }

    #[test]
    fn one_input_is_that_of_its_place() {
        let inputs = race_inputs(&START).unwrap();
        for (place, &input) in inputs.iter().enumerate() {
            assert_eq!(race_input(&START, place), Ok(input));
        }
        assert_eq!(number(race_input(&START, RACE_INPUTS)), Some(14));
        assert_eq!(number(contact_input(&START, CONTACT_INPUTS)), Some(14));
    }

    #[test]
    fn slices_of_another_length_and_refused_boards_stay() {
        // A NaN of many: its bits stay too.
        const NAN: u32 = 0x7FA5_5A55;
        let mut inputs = [f32::from_bits(NAN); CONTACT_INPUTS + 1];
        assert_eq!(raw::munchalep_contact_inputs(&START, &mut inputs), 13);
        assert!(inputs.iter().all(|input| input.to_bits() == NAN));
        assert_eq!(number(contact_inputs(&board(&[(24, 16)]))), Some(1));
    }
}
