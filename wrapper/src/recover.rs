//! The steps behind an end of a roll.

use crate::refusal::value_of;
use crate::{Board, Refusal, raw};

/// The most steps that a roll can have.
pub const MOST_STEPS: usize = 4;

/// One step of one checker.
#[derive(Clone, Copy, Debug, Default, PartialEq, Eq, Hash)]
#[repr(C)]
pub struct Step {
    /// The point that the checker leaves, 25 for the bar.
    pub from: u8,
    /// The point that it reaches, 0 where it is off.
    pub to: u8,
}

/// Writes the steps by which x moved from `old` to `end` to the first places of `row`, and answers
/// their number: legal one after another, as many as the dice used. Places after them stay. Unlike
/// the ends of [`list`](crate::list), `end` is seen from x, the side that moved, as
/// [`switch`](crate::switch) turns them. The dice may be given in either order.
///
/// Refuses 1, 2, 3, 4, 6, 5, 7 of `old` and the dice, then 12 where `end` is not an end of the
/// roll, then 27 where the row has fewer places than steps. With [`MOST_STEPS`] it never has.
///
/// ```
/// use munchalep::Step;
///
/// let (mut old, mut end) = ([0; 26], [0; 26]);
/// (old[13], old[12]) = (1, -1);
/// (end[10], end[0]) = (1, -1);
/// let mut row = [Step::default(); munchalep::MOST_STEPS];
/// let number = munchalep::recover(&old, &end, 2, 1, &mut row)?;
/// // Over 12, where o stood alone.
/// let steps = [Step { from: 13, to: 12 }, Step { from: 12, to: 10 }];
/// assert_eq!(row[..number], steps);
/// # Ok::<(), munchalep::Refusal>(())
/// ```
pub fn recover(
    old: &Board,
    end: &Board,
    die1: usize,
    die2: usize,
    row: &mut [Step],
) -> Result<usize, Refusal> {
    let answer = raw::munchalep_recover(old, end, die1 as u64, die2 as u64, row);
    value_of(answer).map(|number| number as usize)
}

#[cfg(test)]
mod tests {
    use super::*;
    use crate::position::tests::{START, board, number};
    use crate::{count, end, switch};

    const UNTOUCHED: Step = Step { from: 99, to: 99 };

    /// Steps as pairs of from and to.
    fn steps<const N: usize>(pairs: [(u8, u8); N]) -> [Step; N] {
        pairs.map(|(from, to)| Step { from, to })
    }

    #[test]
    fn places_after_the_steps_stay() {
        let (old, end) = (board(&[(5, 1), (20, -1)]), board(&[(20, -1)]));
        let mut row = [UNTOUCHED; 3];
        assert_eq!(recover(&old, &end, 6, 1, &mut row), Ok(2));
        assert_eq!(row[..2], steps([(5, 4), (4, 0)]));
        assert_eq!(row[2], UNTOUCHED);
    }

    #[test]
    fn a_double_has_up_to_four_steps() {
        let (old, end) = (
            board(&[(13, 4), (1, -1)]),
            board(&[(10, 2), (7, 1), (13, 1), (1, -1)]),
        );
        let mut row = [UNTOUCHED; MOST_STEPS];
        assert_eq!(recover(&old, &end, 3, 3, &mut row), Ok(4));
        assert_eq!(row, steps([(13, 10), (13, 10), (13, 10), (10, 7)]));
    }

    #[test]
    fn a_short_row_is_refused_and_stays() {
        let (old, end) = (board(&[(5, 1), (20, -1)]), board(&[(20, -1)]));
        let mut row = [UNTOUCHED; 1];
        assert_eq!(number(recover(&old, &end, 6, 1, &mut row)), Some(27));
        assert_eq!(row, [UNTOUCHED; 1]);
        assert_eq!(number(recover(&old, &end, 6, 1, &mut [])), Some(27));
    }

    #[test]
    fn no_play_has_no_steps() {
        let shut_out = board(&[(25, 1), (19, -2), (20, -2)]);
        assert_eq!(recover(&shut_out, &shut_out, 6, 5, &mut []), Ok(0));
    }

    #[test]
    fn what_is_no_end_is_refused() {
        let mut row = [UNTOUCHED; MOST_STEPS];
        assert_eq!(number(recover(&START, &START, 3, 1, &mut row)), Some(12));
        assert_eq!(
            number(recover(&START, &[-128; 26], 3, 1, &mut row)),
            Some(12)
        );
        assert_eq!(number(recover(&START, &START, 3, 7, &mut row)), Some(7));
        assert_eq!(number(recover(&[0; 26], &START, 3, 7, &mut row)), Some(6));
        assert_eq!(row, [UNTOUCHED; MOST_STEPS]);
    }

    #[test]
    fn every_end_has_steps_that_lead_there() {
        for (die1, die2) in [(3, 1), (6, 4), (2, 2)] {
            for i in 0..count(&START, die1, die2).unwrap() {
                let there = switch(&end(&START, die1, die2, i).unwrap()).unwrap();
                let mut row = [UNTOUCHED; MOST_STEPS];
                let n = recover(&START, &there, die1, die2, &mut row).unwrap();
                let reached = row[..n].iter().fold(START, |at, step| {
                    crate::step(&at, step.from.into(), (step.from - step.to).into()).unwrap()
                });
                assert_eq!(reached, there);
            }
        }
    }
}
