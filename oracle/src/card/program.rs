//! The card program: what it prints for a card, beside the text that document 01's words give.

use super::answer::hex;
use super::games::{self, Played};
use super::{damaged, document};
use crate::boards::{kinds, sample};
use crate::options::Options;
use crate::plain::card::{self, MOST_TURNS};
use crate::rng::Rng;
use crate::{judge, plain};
use std::io::{self, ErrorKind, Write};
use std::path::Path;
use std::process::{Command, Stdio};
use std::thread;

/// Games of boards of each kind, and damaged cards of each game.
const OF_KIND: usize = 8;
const DAMAGED: usize = 4;

/// Bytes of a card that is far too long.
const OVERLONG: usize = 100_000;

/// Gives many cards to the program and compares all that it prints. Answers what was compared, or
/// the first difference, of the shortest card.
pub fn run(program: &Path, options: &Options) -> Result<String, String> {
    let says = card::text(&document::EXAMPLE, judge::ends_of);
    assert_eq!(says, document::EXAMPLE_TEXT, "the plain text is the document's");
    let mut cards = cards(options.seed);
    cards.sort_by_key(Vec::len);
    let mut refused = 0;
    for card in &cards {
        let says = card::text(card, judge::ends_of);
        let prints =
            printed(program, card).map_err(|error| format!("{}: {error}", program.display()))?;
        if prints != says {
            return Err(format!(
                "DIFFERENCE of the card program. The card, {} bytes:\n{}\nit prints:\n{prints}\ndocument 01:\n{says}",
                card.len(),
                hex(card)
            ));
        }
        refused += usize::from(says.starts_with("refused"));
    }
    Ok(format!(
        "seed {}: {} cards given to {}, {refused} of them refused, no difference",
        options.seed,
        cards.len(),
        program.display()
    ))
}

/// The document's cards, games from boards of every kind, damaged ones, and ones that are too long.
fn cards(seed: u64) -> Vec<Vec<u8>> {
    let mut rng = Rng::new(seed, u64::MAX);
    let mut cards = document::cards();
    for kind in 0..kinds().len() {
        let boards = sample(seed, kind, 4 * OF_KIND).into_iter();
        for board in boards.filter(|board| plain::started(board).is_ok()).take(OF_KIND) {
            let start = if rng.once_in(4) { plain::start() } else { board };
            let played = games::played(&start, &mut rng);
            cards.extend((0..DAMAGED).map(|_| damaged::some(&played, &mut rng)));
            cards.extend(too_long(&played, &mut rng));
            cards.push(played.card);
        }
    }
    let longest = document::longest();
    for bytes in [1, 4, 5, 6, longest.len(), OVERLONG] {
        let more = longest[12..].iter().copied().cycle().take(bytes);
        cards.push(longest.iter().copied().chain(more).collect());
    }
    cards
}

/// A game of as many turns as a card has, with some bytes more.
fn too_long(played: &Played, rng: &mut Rng) -> Option<Vec<u8>> {
    if played.game.turns.len() < MOST_TURNS {
        return None;
    }
    let more = (0..rng.between(1, 9)).map(|_| rng.next() as u8);
    Some(played.card.iter().copied().chain(more).collect())
}

/// What the program prints on both its outputs for a card on its input.
fn printed(program: &Path, card: &[u8]) -> io::Result<String> {
    let mut child = Command::new(program)
        .stdin(Stdio::piped())
        .stdout(Stdio::piped())
        .stderr(Stdio::piped())
        .spawn()?;
    let mut input = child.stdin.take().expect("it is piped");
    let output = thread::scope(|scope| {
        // The program may print, or end, before it has read all.
        scope.spawn(move || match input.write_all(card) {
            Err(error) if error.kind() != ErrorKind::BrokenPipe => panic!("{error}"),
            _ => {}
        });
        child.wait_with_output()
    })?;
    Ok(String::from_utf8_lossy(&[output.stdout, output.stderr].concat()).into_owned())
}
