//! The answers of the sides to one call, and a call on which they differ, brought down to the
//! smallest one found.

use std::fmt::{self, Display};

/// What each side answers to one call.
pub struct Answers<A> {
    pub munchalep: A,
    /// Document 01's words.
    pub plain: A,
    /// None where wildbg does not decide.
    pub wildbg: Option<A>,
}

impl<A: PartialEq> Answers<A> {
    pub fn agree(&self) -> bool {
        self.munchalep == self.plain
            && self.wildbg.as_ref().is_none_or(|judged| *judged == self.plain)
    }

    /// The answer that decides.
    pub fn decided(self) -> A {
        self.wildbg.unwrap_or(self.plain)
    }
}

/// One call of one entry.
pub trait Case: Sized {
    type Answer: PartialEq + Display;

    fn answers(&self) -> Answers<Self::Answer>;

    /// Calls to try in its place, each with a smaller input, so that shrinking ends.
    fn smaller(&self) -> Vec<Self>;

    /// The call and its input, in lines.
    fn input_text(&self) -> String;
}

/// The report of a difference.
pub struct Difference(pub String);

impl Difference {
    /// Shrinks a case whose answers differ, and reports the smallest one found.
    pub fn of<C: Case>(case: C) -> Difference {
        let met = text(&case);
        let smallest = text(&shrink(case));
        Difference(format!(
            "DIFFERENCE. Smallest input found:\n{smallest}\nIt was first met as:\n{met}"
        ))
    }

    /// Reports a case that is answered otherwise than `says`, which the document itself gives.
    fn from_document<C: Case>(case: &C, says: &C::Answer) -> Difference {
        let text = text(case);
        Difference(format!("DIFFERENCE from document 01:\n{text}\n  document  {says}"))
    }
}

impl Display for Difference {
    fn fmt(&self, f: &mut fmt::Formatter<'_>) -> fmt::Result {
        f.write_str(&self.0)
    }
}

/// Holds the sides to each other on one case, and to the answer that the document itself gives.
pub fn told<C: Case>(case: C, says: C::Answer) -> Result<(), Difference> {
    let answers = case.answers();
    if !answers.agree() {
        return Err(Difference::of(case));
    }
    if answers.decided() != says {
        return Err(Difference::from_document(&case, &says));
    }
    Ok(())
}

/// Goes on to a smaller case as long as the answers to one of them differ too.
fn shrink<C: Case>(mut case: C) -> C {
    let differs = |case: &C| !case.answers().agree();
    while let Some(smaller) = case.smaller().into_iter().find(differs) {
        case = smaller;
    }
    case
}

/// A case and what each side answers to it.
fn text<C: Case>(case: &C) -> String {
    let answers = case.answers();
    let wildbg = answers.wildbg.map_or("not asked".into(), |answer| answer.to_string());
    format!(
        "{}\n  munchalep {}\n  plain     {}\n  wildbg    {wildbg}",
        case.input_text(),
        answers.munchalep,
        answers.plain,
    )
}
