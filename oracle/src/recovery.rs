//! The entry over a board, an end and a roll: recover.

mod answer;
pub mod document;
mod made;
pub mod stored;

use crate::answer::BoardText;
use crate::counts::{Counts, Entry};
use crate::difference::{Answers, Case, Difference};
use crate::judge::{self, Judge};
use crate::moves::no_roll;
use crate::rng::Rng;
use crate::{plain, smaller};
use answer::Answer;
use munchalep::{Board, MOST_STEPS};

/// Checkers of a side on a board all of whose rolls are compared with all their ends.
const FEW: i32 = 2;

/// Rolls of any other board, and ends of a roll, if it has more.
const ROLLS: usize = 2;
const ENDS: usize = 48;

/// One board in this many has its limits tried, with one of its rolls.
const LIMITS: usize = 12;

/// Recovers the steps to ends of `board`, and counts each call. The board decides what is left to
/// chance.
pub fn compare(board: &Board, counts: &mut Counts) -> Result<(), Difference> {
    let mut rng = Rng::of_board(board);
    let rolls = plain::all_dice();
    let some = |rng: &mut Rng| (0..ROLLS).map(|_| rng.pick(&rolls)).collect();
    let chosen = if has_few(board) { rolls.clone() } else { some(&mut rng) };
    for (larger, less) in chosen {
        let dice = if rng.once_in(2) { (larger, less) } else { (less, larger) };
        let roll = Roll::judged(board, dice);
        let mut ends = roll.ends.clone().unwrap_or(vec![*board]);
        while ends.len() > ENDS {
            ends.swap_remove(rng.below(ends.len()));
        }
        for &end in &ends {
            let places = rng.between(MOST_STEPS, MOST_STEPS + 2);
            counted(RecoveryCase { old: *board, end, dice, places }, &roll, counts)?;
        }
    }
    if rng.once_in(LIMITS) {
        compare_limits(board, &mut rng, counts)?;
    }
    Ok(())
}

/// Whether each side has at most two checkers.
fn has_few(board: &Board) -> bool {
    let all = |sign: i32| board.iter().map(|&entry| (sign * i32::from(entry)).max(0)).sum::<i32>();
    all(1) <= FEW && all(-1) <= FEW
}

/// Makes the calls that try the limits of a board and a roll: rows of every length, boards that are
/// no end, and dice that are no roll.
fn compare_limits(board: &Board, rng: &mut Rng, counts: &mut Counts) -> Result<(), Difference> {
    let dice = rng.pick(&plain::all_dice());
    let roll = Roll::judged(board, dice);
    let end = roll.ends.as_ref().map_or(*board, |ends| rng.pick(ends));
    let case = RecoveryCase { old: *board, end, dice, places: MOST_STEPS };
    for places in (0..MOST_STEPS + 3).chain([64]) {
        counted(RecoveryCase { places, ..case }, &roll, counts)?;
    }
    for end in made::no_ends(&case, rng) {
        counted(RecoveryCase { end, ..case }, &roll, counts)?;
        counted(RecoveryCase { end, places: rng.below(MOST_STEPS), ..case }, &roll, counts)?;
    }
    for dice in [no_roll(rng), no_roll(rng)] {
        let roll = Roll::judged(board, dice);
        let places = rng.below(MOST_STEPS + 1);
        counted(RecoveryCase { dice, places, ..case }, &roll, counts)?;
    }
    Ok(())
}

/// Compares one call and counts it.
fn counted(case: RecoveryCase, roll: &Roll, counts: &mut Counts) -> Result<(), Difference> {
    let answers = case.answers_beside(roll);
    if !answers.agree() {
        return Err(Difference::of(case));
    }
    counts.add(Entry::Recover, answers.munchalep.packed, answers.wildbg.is_some());
    Ok(())
}

/// A call of a board, an end, dice and a row.
#[derive(Clone, Copy, PartialEq, Eq, Hash)]
struct RecoveryCase {
    old: Board,
    /// Told before switching.
    end: Board,
    dice: (usize, usize),
    places: usize,
}

/// What the judges know of a board and dice.
struct Roll {
    judge: Judge,
    /// The ends before switching, or the refusal.
    ends: Result<Vec<Board>, u8>,
    /// Steps to each end.
    steps: usize,
}

impl Roll {
    /// The ends are the plain ones.
    fn of(board: &Board, dice: (usize, usize)) -> Roll {
        Roll::with(board, dice, plain::ends_of)
    }

    /// The ends are wildbg's, which takes less time.
    fn judged(board: &Board, dice: (usize, usize)) -> Roll {
        Roll::with(board, dice, judge::ends_of)
    }

    fn with(board: &Board, dice: (usize, usize), lister: plain::card::Lister) -> Roll {
        let switched = |end: &Board| plain::switch(end).expect("an end is accepted");
        let ends = plain::play(board, dice)
            .map(|()| lister(board, dice).iter().map(switched).collect::<Vec<_>>());
        let steps = if ends.is_ok() { plain::steps_of_roll(board, dice) } else { 0 };
        Roll { judge: Judge::of(board), ends, steps }
    }
}

impl RecoveryCase {
    /// The answers, where what the judges know is at hand.
    fn answers_beside(&self, roll: &Roll) -> Answers<Answer> {
        let munchalep = Answer::of_call(self);
        let is_end = roll.ends.as_ref().map(|ends| ends.contains(&self.end));
        let plain = match is_end {
            Err(refusal) => Answer::refused(*refusal),
            Ok(false) => Answer::refused(12),
            Ok(true) if roll.steps > self.places => Answer::refused(27),
            Ok(true) => self.plain_steps(&munchalep),
        };
        let wildbg = match is_end {
            Ok(true) => roll.judge.steps(&self.end, self.dice),
            Ok(false) => None,
            Err(_) => roll.judge.check().and_then(Result::err).map(Err),
        };
        let wildbg = wildbg.map(|steps| match steps {
            Err(refusal) => Answer::refused(refusal),
            Ok(steps) if steps.len() > self.places => Answer::refused(27),
            Ok(steps) => Answer::of_steps(&steps),
        });
        Answers { munchalep, plain, wildbg }
    }

    /// The document's answer to a legal end: the steps that were answered where they are a play,
    /// else some that are.
    fn plain_steps(&self, answered: &Answer) -> Answer {
        let RecoveryCase { old, end, dice, .. } = self;
        if plain::is_play(&answered.row, old, end, *dice) {
            return Answer::of_steps(&answered.row);
        }
        Answer::of_steps(&plain::some_play(old, end, *dice))
    }
}

impl Case for RecoveryCase {
    type Answer = Answer;

    fn answers(&self) -> Answers<Answer> {
        self.answers_beside(&Roll::of(&self.old, self.dice))
    }

    fn smaller(&self) -> Vec<RecoveryCase> {
        let mut smaller = made::fewer_checkers(self);
        let boards = smaller::boards(&self.old).into_iter();
        smaller.extend(boards.map(|old| RecoveryCase { old, ..*self }));
        let boards = smaller::boards(&self.end).into_iter();
        smaller.extend(boards.map(|end| RecoveryCase { end, ..*self }));
        let (die1, die2) = self.dice;
        let firsts = smaller::numbers(die1).map(|die1| (die1, die2));
        let seconds = smaller::numbers(die2).map(|die2| (die1, die2));
        smaller.extend(firsts.chain(seconds).map(|dice| RecoveryCase { dice, ..*self }));
        smaller
            .extend(smaller::numbers(self.places).map(|places| RecoveryCase { places, ..*self }));
        smaller
    }

    fn input_text(&self) -> String {
        let RecoveryCase { old, end, dice: (die1, die2), places } = self;
        format!(
            "  recover by {die1}-{die2} in {places} places, the board {}\n  entries   {old:?}\n  \
             end       {}\n  entries   {end:?}",
            BoardText(old),
            BoardText(end)
        )
    }
}
