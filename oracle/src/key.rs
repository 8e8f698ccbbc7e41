//! The entries over keys: key and board_of_key.

pub mod document;
pub mod gnubg;
mod made;
pub mod stored;

use crate::answer::{Answer, BoardText, KeyText, Lendable};
use crate::counts::{Counts, Entry};
use crate::difference::{Answers, Case, Difference};
use crate::judge::{self, Judge};
use crate::rng::Rng;
use crate::{plain, smaller};
use munchalep::{Board, Key, raw};

/// One board in this many has each of its key's bits turned round.
const DAMAGED: usize = 24;

/// Writes the key of `board`, reads keys that are made from it, and counts each call. The board
/// decides what is left to chance.
pub fn compare(board: &Board, counts: &mut Counts) -> Result<(), Difference> {
    let mut rng = Rng::of_board(board);
    counted(WriteCase { board: *board }, Entry::Key, counts)?;
    let mut keys = made::of_board(board, &mut rng);
    if rng.once_in(DAMAGED) {
        keys.extend(made::damages(&keys[0]));
    }
    keys.into_iter().try_for_each(|key| counted(ReadCase { key }, Entry::BoardOfKey, counts))
}

/// Compares one call and counts it.
fn counted<C, Out>(case: C, entry: Entry, counts: &mut Counts) -> Result<(), Difference>
where
    C: Case<Answer = Answer<Out>>,
    Out: Lendable,
{
    let answers = case.answers();
    if !answers.agree() {
        return Err(Difference::of(case));
    }
    counts.add(entry, answers.munchalep.packed, answers.wildbg.is_some());
    Ok(())
}

/// The key of a board is asked.
struct WriteCase {
    board: Board,
}

impl Case for WriteCase {
    type Answer = Answer<Key>;

    fn answers(&self) -> Answers<Answer<Key>> {
        Answers {
            munchalep: Answer::of_call(&self.board, |board, key| raw::munchalep_key(board, key)),
            plain: Answer::of_written(plain::key(&self.board)),
            wildbg: Judge::of(&self.board).key().map(Answer::of_written),
        }
    }

    fn smaller(&self) -> Vec<WriteCase> {
        smaller::boards(&self.board).into_iter().map(|board| WriteCase { board }).collect()
    }

    fn input_text(&self) -> String {
        let (text, entries) = (BoardText(&self.board), &self.board);
        format!("  key of the board {text}\n  entries   {entries:?}")
    }
}

/// The board of a key is asked.
struct ReadCase {
    key: Key,
}

impl Case for ReadCase {
    type Answer = Answer;

    fn answers(&self) -> Answers<Answer> {
        let plain = plain::board_of_key(&self.key);
        Answers {
            munchalep: Answer::of_call(&self.key, |key, out| raw::munchalep_board_of_key(key, out)),
            plain: Answer::of_board(plain),
            wildbg: plain.is_ok().then(|| Answer::of_board(Ok(judge::board_of_key(&self.key)))),
        }
    }

    fn smaller(&self) -> Vec<ReadCase> {
        made::smaller(&self.key).into_iter().map(|key| ReadCase { key }).collect()
    }

    fn input_text(&self) -> String {
        format!("  board_of_key of {}", KeyText(&self.key))
    }
}
