//! The entries over a board and a roll: list, count and end.

mod answer;
pub mod document;
mod lists;
pub mod stored;

pub use lists::Lists;

use crate::answer::BoardText;
use crate::counts::{Counts, Entry};
use crate::difference::{Answers, Case, Difference};
use crate::judge::Judge;
use crate::rng::Rng;
use crate::{plain, smaller};
use answer::Answer;
use engine::position::Position;
use munchalep::{Board, END_BYTES, MOST_ENDS};

/// The length of a list that has room for the ends of any roll.
const ROOM: usize = MOST_ENDS * END_BYTES;

/// Dice outside 1 to 6. Cut to 8, 16 or 32 bits, the last but one would be within them.
const NO_DICE: [usize; 7] = [0, 7, 8, 0x103, 0x1_0002, 0x1_0000_0001, usize::MAX];

/// End numbers that no roll has. Cut to 16 or 32 bits, the first two would be 0.
const NO_ENDS: [usize; 4] = [0x1_0000, 0x1_0000_0000, usize::MAX / 26 + 1, usize::MAX];

/// Ends of a roll that are asked by number, where it has more: the first and the last ones.
const ASKED: usize = 64;

/// A call, of whatever board and dice.
#[derive(Clone, Copy, PartialEq, Eq, Hash)]
enum Call {
    List { length: usize },
    Count,
    End { number: usize },
}

impl Call {
    fn list(length: usize) -> Call {
        Call::List { length }
    }

    fn end(number: usize) -> Call {
        Call::End { number }
    }
}

/// A call of a board and dice.
#[derive(Clone, Copy, PartialEq, Eq, Hash)]
struct MovesCase {
    board: Board,
    dice: (usize, usize),
    call: Call,
}

/// What the judges say of a board and dice.
struct Ends {
    plain: Result<Vec<Board>, u8>,
    wildbg: Option<Result<Vec<Board>, u8>>,
}

impl Ends {
    fn of(board: &Board, dice: (usize, usize)) -> Ends {
        let boards = |ends: Vec<Position>| ends.into_iter().map(Board::from).collect();
        let wildbg = Judge::of(board).ends(dice).map(|ends| ends.map(boards));
        Ends { plain: plain::ends(board, dice), wildbg }
    }

    /// How many ends there are; 0 where the play is refused.
    fn number(&self) -> usize {
        self.plain.as_ref().map_or(0, Vec::len)
    }
}

/// Makes the calls that try the limits of a board and dice, and counts them: ends by number, and
/// lists of lengths that do or do not do.
fn compare_limits(
    board: &Board,
    dice: (usize, usize),
    counts: &mut Counts,
) -> Result<(), Difference> {
    let ends = Ends::of(board, dice);
    for call in limit_calls(ends.number()) {
        let case = MovesCase { board: *board, dice, call };
        let answers = case.answers_beside(&ends);
        if !answers.agree() {
            return Err(Difference::of(case));
        }
        counts.add(case.entry(), answers.munchalep.packed, answers.wildbg.is_some());
    }
    Ok(())
}

/// The calls at and around the limits of a roll with `ends` ends.
fn limit_calls(ends: usize) -> Vec<Call> {
    let need = ends * END_BYTES;
    let around = |length: usize| {
        [0, 1, 2, 3].map(|end| (length + end * END_BYTES).saturating_sub(END_BYTES))
    };
    let mut lengths: Vec<usize> = [need, need + 1, need.saturating_sub(1)].map(around).concat();
    lengths.extend([0, 1, 25, 26, need / 2]);
    if ends > 0 {
        // A list with room for any is written without a count.
        lengths.extend([ROOM - 1, ROOM, ROOM + 1]);
    }
    lengths.sort_unstable();
    lengths.dedup();

    let mut numbers: Vec<usize> = (0..ends + 2).collect();
    if ends > 2 * ASKED {
        numbers.drain(ASKED..ends - ASKED);
    }
    numbers.extend(NO_ENDS);

    let lists = lengths.into_iter().map(Call::list);
    let by_number = numbers.into_iter().map(Call::end);
    [Call::Count].into_iter().chain(lists).chain(by_number).collect()
}

/// Two dice of which one or both are outside 1 to 6.
pub fn no_roll(rng: &mut Rng) -> (usize, usize) {
    let (no_die, other, die) = (rng.pick(&NO_DICE), rng.pick(&NO_DICE), rng.between(1, 6));
    rng.pick(&[(no_die, die), (die, no_die), (no_die, other)])
}

impl MovesCase {
    /// The answers, where the judges' ends are at hand.
    fn answers_beside(&self, ends: &Ends) -> Answers<Answer> {
        Answers {
            munchalep: Answer::of_call(self),
            plain: Answer::of_ends(self.call, &ends.plain),
            wildbg: ends.wildbg.as_ref().map(|ends| Answer::of_ends(self.call, ends)),
        }
    }

    fn entry(&self) -> Entry {
        match self.call {
            Call::List { .. } => Entry::List,
            Call::Count => Entry::Count,
            Call::End { .. } => Entry::End,
        }
    }
}

impl Case for MovesCase {
    type Answer = Answer;

    fn answers(&self) -> Answers<Answer> {
        self.answers_beside(&Ends::of(&self.board, self.dice))
    }

    fn smaller(&self) -> Vec<MovesCase> {
        let boards = smaller::boards(&self.board).into_iter();
        let mut smaller: Vec<_> = boards.map(|board| MovesCase { board, ..*self }).collect();
        let (die1, die2) = self.dice;
        let firsts = smaller::numbers(die1).map(|die1| (die1, die2));
        let seconds = smaller::numbers(die2).map(|die2| (die1, die2));
        smaller.extend(firsts.chain(seconds).map(|dice| MovesCase { dice, ..*self }));
        let calls: Vec<Call> = match self.call {
            // A list that is as long as it has to be shows the ends that differ.
            Call::List { length } => {
                let need = Ends::of(&self.board, self.dice).number() * END_BYTES;
                [need].into_iter().filter(|&need| need < length).map(Call::list).collect()
            }
            Call::Count => Vec::new(),
            Call::End { number } => smaller::numbers(number).map(Call::end).collect(),
        };
        smaller.extend(calls.into_iter().map(|call| MovesCase { call, ..*self }));
        smaller
    }

    fn input_text(&self) -> String {
        let call = match self.call {
            Call::List { length } => format!("list in {length} bytes"),
            Call::Count => "count".into(),
            Call::End { number } => format!("end {number}"),
        };
        let (text, entries, (die1, die2)) = (BoardText(&self.board), &self.board, self.dice);
        format!("  {call} of {die1}-{die2}, the board {text}\n  entries   {entries:?}")
    }
}
