//! "Inputs" as plain code. Every input is a whole number, and is told as one.

use super::{CHECKERS, O_BAR, X_BAR, check, o_checkers, x_checkers};
use munchalep::Board;

/// The nets that have inputs.
#[derive(Clone, Copy, PartialEq, Eq, Hash)]
pub enum Net {
    Contact,
    Race,
}

impl Net {
    pub const ALL: [Net; 2] = [Net::Contact, Net::Race];

    /// "Exactly 202 (contact) or 186 (race) values."
    pub fn size(self) -> usize {
        match self {
            Net::Contact => 202,
            Net::Race => 186,
        }
    }
}

/// The inputs of a net by their places: "x off, o off, x's bar, x on 1 to 24, o on 0 to 24", or "x
/// off, o off, x on 1 to 23, o on 2 to 24". Refuses 1 to 4.
pub fn inputs(board: &Board, net: Net) -> Result<Vec<u8>, u8> {
    check(board)?;
    let x = |point: usize| four(board[point].max(0) as u8);
    let o = |point: usize| four((-board[point]).max(0) as u8);
    let points: Vec<[u8; 4]> = match net {
        Net::Contact => {
            [X_BAR].into_iter().chain(1..=24).map(x).chain((O_BAR..=24).map(o)).collect()
        }
        Net::Race => (1..=23).map(x).chain((2..=24).map(o)).collect(),
    };
    let off = [x_checkers(board), o_checkers(board)].map(|checkers| (CHECKERS - checkers) as u8);
    let inputs = [&off, points.as_flattened()].concat();
    assert_eq!(inputs.len(), net.size(), "there are that many");
    Ok(inputs)
}

/// "Count 1: 1,0,0,0; count 2: 0,1,0,0; from 3 on 0,0,1 and a fourth. The fourth is the count less
/// three, exactly. None of that side: all 0."
fn four(count: u8) -> [u8; 4] {
    match count {
        0 => [0, 0, 0, 0],
        1 => [1, 0, 0, 0],
        2 => [0, 1, 0, 0],
        _ => [0, 0, 1, count - 3],
    }
}
