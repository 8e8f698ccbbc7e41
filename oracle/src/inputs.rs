//! The entries over the inputs of the nets: contact_inputs, race_inputs, contact_input and
//! race_input.

mod answer;
pub mod document;
pub mod stored;

use crate::answer::BoardText;
use crate::counts::{Counts, Entry};
use crate::difference::{Answers, Case, Difference};
use crate::judge::Judge;
use crate::plain::{self, Net};
use crate::rng::Rng;
use crate::smaller;
use answer::Answer;
use munchalep::Board;

/// One board in this many has every place asked, and slices of all of `LENGTHS` lent.
const WHOLE: usize = 64;

/// Lengths around none and around both sizes, and others that have something of them: 808 is the
/// number of bytes of the contact net's inputs.
const LENGTHS: [usize; 22] = [
    0, 1, 2, 3, 4, 50, 101, 183, 184, 185, 186, 187, 188, 189, 199, 200, 201, 202, 203, 204, 808,
    1024,
];

/// Places around both sizes, and far beyond them. Cut to 8, 16 or 32 bits, the huge ones but the
/// last would be places.
const PLACES: [usize; 15] = [
    0,
    1,
    2,
    185,
    186,
    187,
    201,
    202,
    203,
    0x100,
    0x165,
    0x1_0002,
    0x1_0000_0005,
    0x1_0000_0000_0000,
    usize::MAX,
];

/// A call, of whatever board and net.
#[derive(Clone, Copy, PartialEq, Eq, Hash)]
enum Call {
    /// All inputs are asked, into a slice of a length.
    Fill { length: usize },
    /// The input that has a place is asked.
    One { place: usize },
}

impl Call {
    fn fill(length: usize) -> Call {
        Call::Fill { length }
    }

    fn one(place: usize) -> Call {
        Call::One { place }
    }
}

/// A call of a board and a net.
#[derive(Clone, Copy, PartialEq, Eq, Hash)]
struct InputsCase {
    board: Board,
    net: Net,
    call: Call,
}

/// What the judges say of a board and a net: every input by its place.
struct Inputs {
    plain: Result<Vec<f32>, u8>,
    wildbg: Option<Result<Vec<f32>, u8>>,
}

impl Inputs {
    fn of(judge: &Judge, board: &Board, net: Net) -> Inputs {
        let floats = |inputs: Vec<u8>| inputs.into_iter().map(f32::from).collect();
        Inputs { plain: plain::inputs(board, net).map(floats), wildbg: judge.inputs(net) }
    }
}

/// Makes calls of `board` and counts them: both nets' inputs, and some or all that try the limits.
/// The board decides what is left to chance.
pub fn compare(board: &Board, counts: &mut Counts) -> Result<(), Difference> {
    let mut rng = Rng::of_board(board);
    let is_whole = rng.once_in(WHOLE);
    let judge = Judge::of(board);
    for net in Net::ALL {
        let inputs = Inputs::of(&judge, board, net);
        let calls = if is_whole { every_call(net) } else { some_calls(net, &mut rng) };
        for call in calls {
            let case = InputsCase { board: *board, net, call };
            let answers = case.answers_beside(&inputs);
            if !answers.agree() {
                return Err(Difference::of(case));
            }
            counts.add(case.entry(), answers.munchalep.packed, answers.wildbg.is_some());
        }
    }
    Ok(())
}

/// The inputs of a net, a slice of another length, two inputs by place, and a place at a limit.
fn some_calls(net: Net, rng: &mut Rng) -> Vec<Call> {
    vec![
        Call::fill(net.size()),
        Call::fill(rng.pick(&LENGTHS)),
        Call::one(rng.below(net.size())),
        Call::one(rng.below(net.size())),
        Call::one(rng.pick(&PLACES)),
    ]
}

/// Slices of every length, and every place.
fn every_call(net: Net) -> Vec<Call> {
    let places = (0..net.size()).chain(PLACES.into_iter().filter(|&place| place >= net.size()));
    LENGTHS.into_iter().map(Call::fill).chain(places.map(Call::one)).collect()
}

impl InputsCase {
    /// The answers, where the judges' inputs are at hand.
    fn answers_beside(&self, inputs: &Inputs) -> Answers<Answer> {
        // wildbg has no refusal of its own for a length or a place: it would panic.
        let is_asked = match self.call {
            Call::Fill { length } => length == self.net.size(),
            Call::One { place } => place < self.net.size(),
        };
        let decides = |inputs: &&Result<Vec<f32>, u8>| is_asked || inputs.is_err();
        Answers {
            munchalep: Answer::of_call(self),
            plain: Answer::of_inputs(self.call, &inputs.plain),
            wildbg: inputs
                .wildbg
                .as_ref()
                .filter(decides)
                .map(|inputs| Answer::of_inputs(self.call, inputs)),
        }
    }

    fn entry(&self) -> Entry {
        match (self.net, self.call) {
            (Net::Contact, Call::Fill { .. }) => Entry::ContactInputs,
            (Net::Race, Call::Fill { .. }) => Entry::RaceInputs,
            (Net::Contact, Call::One { .. }) => Entry::ContactInput,
            (Net::Race, Call::One { .. }) => Entry::RaceInput,
        }
    }
}

impl Case for InputsCase {
    type Answer = Answer;

    fn answers(&self) -> Answers<Answer> {
        self.answers_beside(&Inputs::of(&Judge::of(&self.board), &self.board, self.net))
    }

    fn smaller(&self) -> Vec<InputsCase> {
        let boards = smaller::boards(&self.board).into_iter();
        let mut smaller: Vec<_> = boards.map(|board| InputsCase { board, ..*self }).collect();
        let calls: Vec<Call> = match self.call {
            Call::Fill { length } => smaller::numbers(length).map(Call::fill).collect(),
            Call::One { place } => smaller::numbers(place).map(Call::one).collect(),
        };
        smaller.extend(calls.into_iter().map(|call| InputsCase { call, ..*self }));
        smaller
    }

    fn input_text(&self) -> String {
        let net = match self.net {
            Net::Contact => "contact",
            Net::Race => "race",
        };
        let call = match self.call {
            Call::Fill { length } => format!("{net}_inputs in {length} floats"),
            Call::One { place } => format!("{net}_input {place}"),
        };
        let (text, entries) = (BoardText(&self.board), &self.board);
        format!("  {call} of the board {text}\n  entries   {entries:?}")
    }
}
