//! Refusals, and how an answer of the C interface is taken apart.

use core::fmt;

/// Why a call was refused. Nothing was written.
#[derive(Clone, Copy, Debug, PartialEq, Eq, Hash)]
pub struct Refusal {
    /// The refusal number, one of `enum munchalep_refusal` in `include/munchalep.h`.
    pub number: u8,
    /// What the refusal carries: the number of ends for 10, the byte offset of the refused record
    /// where a card was read, else 0.
    pub carried: u64,
}

/// The value of a packed answer, or its refusal.
pub(crate) fn value_of(answer: u64) -> Result<u64, Refusal> {
    let (number, value) = (answer as u8, answer >> 8);
    if number == 0 {
        Ok(value)
    } else {
        Err(Refusal {
            number,
            carried: value,
        })
    }
}

impl fmt::Display for Refusal {
    fn fmt(&self, f: &mut fmt::Formatter<'_>) -> fmt::Result {
        f.write_str(match self.number {
            1 => "x has more than 15 checkers",
            2 => "o has more than 15 checkers",
            3 => "entry 25, x's bar, is negative",
            4 => "entry 0, o's bar, is positive",
            5 => "one side has all its checkers off",
            6 => "neither side has a checker on the board",
            7 => "a die is outside 1 to 6",
            8 => "a step starts above point 25",
            9 => "the step is not legal",
            10 => "the list is too short for the ends",
            11 => "the end number is not below the number of ends",
            12 => "the second board is not a legal end",
            13 => "the input buffer has not exactly 202 (contact) or 186 (race) values",
            14 => "the input place is not below 202 (contact) or 186 (race)",
            15 => "the key gives o a sixteenth checker",
            16 => "the key gives x a sixteenth checker",
            17 => "the key has both sides on one point",
            18 => "the key has a bit set after its last end bit",
            19 => "the card buffer is too short",
            20 => "the start record has under 12 bytes",
            21 => "the start record's mark is wrong",
            22 => "the card has a turn beyond the limit",
            23 => "the turn record has under 5 bytes",
            24 => "the turn record's mark is wrong",
            25 => "the card has a turn after a finish",
            26 => "the dice byte is not one of the 21",
            27 => "there are fewer step places than steps",
            36 => "the position number is above the card's number of turns",
            number => return write!(f, "refusal {number}"),
        })
    }
}

impl core::error::Error for Refusal {}

#[cfg(test)]
mod tests {
    use super::*;

    #[test]
    fn an_answer_is_taken_apart() {
        assert_eq!(value_of(0), Ok(0));
        assert_eq!(value_of(7 << 8), Ok(7));
        assert_eq!(
            value_of((2226 << 8) | 10),
            Err(Refusal {
                number: 10,
                carried: 2226
            })
        );
    }
}
