//! What recover answers: its packed number, and what it did to the lent row.

use super::RecoveryCase;
use crate::answer::unpacked;
use crate::guarded::{Guarded, Item};
use munchalep::{Board, Step, raw};
use std::fmt;
use std::hint::black_box;

impl Item for Step {
    // No step begins so high.
    const PATTERN: Step = Step { from: 0x55, to: 0x55 };
}

/// The answer to one call.
#[derive(PartialEq, Eq)]
pub struct Answer {
    pub packed: u64,
    /// The row up to the last place that changed.
    pub row: Vec<Step>,
    /// Whether something outside the row changed.
    strayed: bool,
}

impl Answer {
    pub fn of_steps(steps: &[Step]) -> Answer {
        Answer { packed: (steps.len() as u64) << 8, row: steps.to_vec(), strayed: false }
    }

    pub fn refused(refusal: u8) -> Answer {
        Answer { packed: u64::from(refusal), row: Vec::new(), strayed: false }
    }

    /// The library's answer.
    pub fn of_call(case: &RecoveryCase) -> Answer {
        let mut old = Guarded::with(&case.old);
        let mut end = Guarded::with(&case.end);
        let mut row = Guarded::blank(case.places);
        let packed = call(case, old.lent(), end.lent(), row.lent());
        // The compiler may take for granted that only what was lent changed; it is to look.
        black_box((&mut old, &mut end, &mut row));
        let strayed = [(&mut old, &case.old), (&mut end, &case.end)]
            .into_iter()
            .any(|(given, was)| given.lent() != was || given.strayed());
        let last = row.lent().iter().rposition(|step| !step.is_pattern());
        Answer {
            packed,
            row: row.lent()[..last.map_or(0, |last| last + 1)].to_vec(),
            strayed: strayed || row.strayed(),
        }
    }
}

/// Makes a call: of the boards that are given, with the row that it is lent.
fn call(case: &RecoveryCase, old: &[i8], end: &[i8], row: &mut [Step]) -> u64 {
    let [old, end]: [&Board; 2] =
        [old, end].map(|given| given.try_into().expect("a board was put there"));
    raw::munchalep_recover(old, end, case.dice.0 as u64, case.dice.1 as u64, row)
}

impl fmt::Display for Answer {
    fn fmt(&self, f: &mut fmt::Formatter<'_>) -> fmt::Result {
        let (refusal, value) = unpacked(self.packed);
        write!(f, "refusal {refusal}, value {value}, ")?;
        if self.row.is_empty() {
            write!(f, "the row as it was")?;
        }
        for (i, step) in self.row.iter().enumerate() {
            write!(f, "{}{} to {}", if i == 0 { "" } else { ", " }, step.from, step.to)?;
        }
        if self.strayed {
            write!(f, ", MEMORY OUTSIDE THE ROW CHANGED")?;
        }
        Ok(())
    }
}
