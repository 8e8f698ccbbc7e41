//! The entries over one board: check, switch, step and result.

pub mod document;
pub mod stored;

use crate::answer::{Answer, BoardText};
use crate::counts::{Counts, Entry};
use crate::difference::{Answers, Case, Difference};
use crate::judge::Judge;
use crate::{plain, smaller};
use munchalep::{Board, raw};
use std::sync::LazyLock;

/// A call, of whatever board.
#[derive(Clone, Copy, PartialEq, Eq, Hash)]
enum Call {
    Check,
    Switch,
    Step { from: usize, die: usize },
    Result,
}

/// Points and dice far beyond their limits. Cut to 8, 16 or 32 bits, the first three would be
/// within them.
const HUGE_FROM: [usize; 4] = [0x108, 0x1_0006, 0x1_0000_0005, usize::MAX];
const HUGE_DIE: [usize; 4] = [0x103, 0x1_0002, 0x1_0000_0001, usize::MAX];

/// Every call that is made of a board.
static CALLS: LazyLock<Vec<Call>> = LazyLock::new(|| {
    let points: Vec<usize> = (0..=27).collect();
    let mut calls = vec![Call::Check, Call::Switch, Call::Result];
    calls.extend(steps(&points, &[0, 1, 2, 3, 4, 5, 6, 7, 8]));
    calls.extend(steps(&HUGE_FROM, &[0, 1, 6]));
    calls.extend(steps(&[5, 8, 26], &HUGE_DIE));
    calls
});

/// The steps from each of `points` by each of `dice`.
fn steps(points: &[usize], dice: &[usize]) -> Vec<Call> {
    let mut steps = Vec::new();
    for &from in points {
        steps.extend(dice.iter().map(|&die| Call::Step { from, die }));
    }
    steps
}

/// Makes every call of `board` and counts it.
pub fn compare(board: &Board, counts: &mut Counts) -> Result<(), Difference> {
    let judge = Judge::of(board);
    let mut case = PositionCase { board: *board, call: Call::Check };
    for &call in CALLS.iter() {
        case.call = call;
        let answers = case.answers_beside(&judge);
        if !answers.agree() {
            return Err(Difference::of(case));
        }
        counts.add(case.entry(), answers.munchalep.packed, answers.wildbg.is_some());
    }
    Ok(())
}

/// A call of a board.
#[derive(Clone, Copy, PartialEq, Eq, Hash)]
struct PositionCase {
    board: Board,
    call: Call,
}

impl PositionCase {
    /// The answers, where wildbg's judge of the board is at hand.
    fn answers_beside(&self, judge: &Judge) -> Answers<Answer> {
        Answers { munchalep: self.munchalep(), plain: self.plain(), wildbg: self.wildbg(judge) }
    }

    fn munchalep(&self) -> Answer {
        Answer::of_call(&self.board, |board, out| match self.call {
            Call::Check => raw::munchalep_check(board),
            Call::Switch => raw::munchalep_switch(board, out),
            Call::Step { from, die } => raw::munchalep_step(board, from as u64, die as u64, out),
            Call::Result => raw::munchalep_result(board),
        })
    }

    fn plain(&self) -> Answer {
        let board = &self.board;
        match self.call {
            Call::Check => Answer::of_value(plain::check(board).map(|()| 0)),
            Call::Switch => Answer::of_board(plain::switch(board)),
            Call::Step { from, die } => Answer::of_board(plain::step(board, from, die)),
            Call::Result => Answer::of_value(plain::result(board)),
        }
    }

    fn wildbg(&self, judge: &Judge) -> Option<Answer> {
        Some(match self.call {
            Call::Check => Answer::of_value(judge.check()?.map(|()| 0)),
            Call::Switch => Answer::of_board(judge.switch()?),
            Call::Step { from, die } => Answer::of_board(judge.step(from, die)?),
            Call::Result => Answer::of_value(judge.result()?),
        })
    }

    fn entry(&self) -> Entry {
        match self.call {
            Call::Check => Entry::Check,
            Call::Switch => Entry::Switch,
            Call::Step { .. } => Entry::Step,
            Call::Result => Entry::Result,
        }
    }
}

impl Case for PositionCase {
    type Answer = Answer;

    fn answers(&self) -> Answers<Answer> {
        self.answers_beside(&Judge::of(&self.board))
    }

    fn smaller(&self) -> Vec<PositionCase> {
        let boards = smaller::boards(&self.board).into_iter();
        let mut smaller: Vec<_> = boards.map(|board| PositionCase { board, ..*self }).collect();
        if let Call::Step { from, die } = self.call {
            let froms = smaller::numbers(from).map(|from| Call::Step { from, die });
            let dice = smaller::numbers(die).map(|die| Call::Step { from, die });
            smaller.extend(froms.chain(dice).map(|call| PositionCase { call, ..*self }));
        }
        smaller
    }

    fn input_text(&self) -> String {
        let call = match self.call {
            Call::Check => "check".into(),
            Call::Switch => "switch".into(),
            Call::Step { from, die } => format!("step from {from} by {die}"),
            Call::Result => "result".into(),
        };
        let (text, entries) = (BoardText(&self.board), &self.board);
        format!("  {call} of the board {text}\n  entries   {entries:?}")
    }
}
