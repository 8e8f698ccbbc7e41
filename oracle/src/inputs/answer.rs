//! What an entry over inputs answers: its packed number, and what it did to lent floats, bit for
//! bit.

use super::{Call, InputsCase};
use crate::answer::unpacked;
use crate::guarded::{Guarded, Item};
use crate::plain::Net;
use munchalep::{Board, raw};
use std::fmt;
use std::hint::black_box;

impl Item for f32 {
    // A NaN: no input is one, and to replace it by another changes lent bytes.
    const PATTERN: f32 = f32::from_bits(0x7FA5_5A55);

    fn is_pattern(self) -> bool {
        self.to_bits() == f32::PATTERN.to_bits()
    }
}

/// The answer to one call.
#[derive(PartialEq, Eq)]
pub struct Answer {
    pub packed: u64,
    /// The bits of every lent float; none where all are as they were.
    pub written: Option<Vec<u32>>,
    /// Whether something outside lent floats changed.
    strayed: bool,
}

impl Answer {
    /// The answer of `call` where these are the inputs, or they are refused.
    pub fn of_inputs(call: Call, inputs: &Result<Vec<f32>, u8>) -> Answer {
        let inputs = match inputs {
            Err(refusal) => return Answer::refused(*refusal),
            Ok(inputs) => inputs,
        };
        match call {
            Call::Fill { length } if length != inputs.len() => Answer::refused(13),
            Call::Fill { .. } => Answer::written(inputs),
            Call::One { place } => match inputs.get(place) {
                None => Answer::refused(14),
                Some(&input) => Answer::written(&[input]),
            },
        }
    }

    pub fn written(floats: &[f32]) -> Answer {
        Answer { packed: 0, written: Some(bits(floats)), strayed: false }
    }

    pub fn refused(refusal: u8) -> Answer {
        Answer { packed: u64::from(refusal), written: None, strayed: false }
    }

    /// The library's answer.
    pub fn of_call(case: &InputsCase) -> Answer {
        let length = if let Call::Fill { length } = case.call { length } else { 1 };
        let mut given = Guarded::with(&case.board);
        let mut floats = Guarded::blank(length);
        let packed = call(case, given.lent(), floats.lent());
        // The compiler may take for granted that only what was lent changed; it is to look.
        black_box((&mut given, &mut floats));
        let is_changed = floats.lent().iter().any(|float| !float.is_pattern());
        Answer {
            packed,
            written: is_changed.then(|| bits(floats.lent())),
            strayed: given.lent() != case.board || given.strayed() || floats.strayed(),
        }
    }
}

fn bits(floats: &[f32]) -> Vec<u32> {
    floats.iter().map(|float| float.to_bits()).collect()
}

/// Makes a call: of the board `given`, with the floats that it is lent.
fn call(case: &InputsCase, given: &[i8], floats: &mut [f32]) -> u64 {
    let given: &Board = given.try_into().expect("a board was put there");
    match (case.net, case.call) {
        (Net::Contact, Call::Fill { .. }) => raw::munchalep_contact_inputs(given, floats),
        (Net::Race, Call::Fill { .. }) => raw::munchalep_race_inputs(given, floats),
        (Net::Contact, Call::One { place }) => {
            raw::munchalep_contact_input(given, place as u64, &mut floats[0])
        }
        (Net::Race, Call::One { place }) => {
            raw::munchalep_race_input(given, place as u64, &mut floats[0])
        }
    }
}

impl fmt::Display for Answer {
    fn fmt(&self, f: &mut fmt::Formatter<'_>) -> fmt::Result {
        let (refusal, value) = unpacked(self.packed);
        write!(f, "refusal {refusal}, value {value}, ")?;
        match &self.written {
            None => write!(f, "floats as they were")?,
            Some(bits) => {
                write!(f, "{} floats, all 0 but", bits.len())?;
                for (place, &bits) in bits.iter().enumerate().filter(|&(_, &bits)| bits != 0) {
                    write!(f, " {place}:{}", f32::from_bits(bits))?;
                }
            }
        }
        if self.strayed {
            write!(f, ", MEMORY OUTSIDE LENT FLOATS CHANGED")?;
        }
        Ok(())
    }
}
