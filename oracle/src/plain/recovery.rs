//! "Recovery" as plain code. The document leaves the choice of the steps to the Rust: here steps are
//! judged, whoever chose them.

use super::{O_BAR, X_BAR, is_legal, stepped};
use munchalep::{Board, Step};

/// How many steps lead to an end of the roll: "as many as the dice used", which are as many as can
/// be used.
pub fn steps_of_roll(board: &Board, dice: (usize, usize)) -> usize {
    most_steps(board, &each_die(dice))
}

/// "Legal one after another, as many as the dice used, and lead to the end."
pub fn is_play(steps: &[Step], old: &Board, end: &Board, dice: (usize, usize)) -> bool {
    steps.len() == steps_of_roll(old, dice) && leads(steps, old, end, &each_die(dice))
}

/// Some play that leads to a legal end.
pub fn some_play(old: &Board, end: &Board, dice: (usize, usize)) -> Vec<Step> {
    let steps = steps_of_roll(old, dice);
    play_of(steps, old, end, &each_die(dice)).expect("a play leads to a legal end")
}

/// "A play uses each die at most once, a double's die at most four times."
fn each_die((die1, die2): (usize, usize)) -> Vec<usize> {
    if die1 == die2 { vec![die1; 4] } else { vec![die1, die2] }
}

/// The most legal steps one after another, each by a die of its own.
fn most_steps(board: &Board, dice: &[usize]) -> usize {
    let mut most = 0;
    for (die, rest) in choices(dice) {
        for from in origins(board, die) {
            most = most.max(1 + most_steps(&stepped(board, from, die), &rest));
            if most == dice.len() {
                return most;
            }
        }
    }
    most
}

/// Whether steps are legal one after another, each by a die of its own, and lead to the end.
fn leads(steps: &[Step], old: &Board, end: &Board, dice: &[usize]) -> bool {
    let Some((step, later)) = steps.split_first() else {
        return old == end;
    };
    let from = usize::from(step.from);
    from <= X_BAR
        && choices(dice).into_iter().any(|(die, rest)| {
            *step == told(from, die)
                && is_legal(old, from, die)
                && leads(later, &stepped(old, from, die), end, &rest)
        })
}

/// A play of some steps that leads to the end.
fn play_of(steps: usize, old: &Board, end: &Board, dice: &[usize]) -> Option<Vec<Step>> {
    if steps == 0 {
        return (old == end).then(Vec::new);
    }
    choices(dice).into_iter().find_map(|(die, rest)| {
        origins(old, die).find_map(|from| {
            let later = play_of(steps - 1, &stepped(old, from, die), end, &rest)?;
            Some([vec![told(from, die)], later].concat())
        })
    })
}

/// "Each a from and a to (25 bar, 0 off)."
fn told(from: usize, die: usize) -> Step {
    Step { from: from as u8, to: from.saturating_sub(die) as u8 }
}

/// Each die that differs from those before it, with the others.
fn choices(dice: &[usize]) -> Vec<(usize, Vec<usize>)> {
    let is_first = |i: &usize| !dice[..*i].contains(&dice[*i]);
    let others = |i: usize| [&dice[..i], &dice[i + 1..]].concat();
    (0..dice.len()).filter(is_first).map(|i| (dice[i], others(i))).collect()
}

/// Where a legal step by a die may begin.
fn origins(board: &Board, die: usize) -> impl Iterator<Item = usize> {
    (O_BAR + 1..=X_BAR).filter(move |&from| is_legal(board, from, die))
}
