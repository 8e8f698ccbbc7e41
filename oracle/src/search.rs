//! The comparison: every block of boards, on several threads, until the time is over.

use crate::boards::{Boards, kinds};
use crate::counts::{Counts, grouped, tables};
use crate::difference::Difference;
use crate::options::Options;
use crate::{card, inputs, key, moves, position, recovery};
use munchalep::Board;
use std::sync::atomic::{AtomicBool, AtomicU64, AtomicUsize, Ordering::Relaxed};
use std::sync::{Mutex, OnceLock};
use std::thread::{self, ScopedJoinHandle};
use std::time::{Duration, Instant};

/// What can be compared of a board: groups of entries.
#[derive(Clone, Copy, PartialEq, Eq)]
pub enum Group {
    Position,
    Moves,
    Key,
    Inputs,
    Recovery,
    Card,
}

/// All groups, by the names that `--only` takes.
pub const GROUPS: [(&str, Group); 6] = [
    ("position", Group::Position),
    ("moves", Group::Moves),
    ("key", Group::Key),
    ("inputs", Group::Inputs),
    ("recovery", Group::Recovery),
    ("card", Group::Card),
];

/// Compares the entries of some groups, with memory of its own.
struct Comparison<'a> {
    groups: &'a [Group],
    lists: moves::Lists,
}

impl Comparison<'_> {
    fn compare(&mut self, board: &Board, counts: &mut Counts) -> Result<(), Difference> {
        self.groups.iter().try_for_each(|group| match group {
            Group::Position => position::compare(board, counts),
            Group::Moves => self.lists.compare(board, counts),
            Group::Key => key::compare(board, counts),
            Group::Inputs => inputs::compare(board, counts),
            Group::Recovery => recovery::compare(board, counts),
            Group::Card => card::compare(board, counts),
        })
    }
}

/// Compares the document's own answers.
fn compare_document(groups: &[Group]) -> Result<(), Difference> {
    groups.iter().try_for_each(|group| match group {
        Group::Position => position::document::compare(),
        Group::Moves => moves::document::compare(),
        Group::Key => key::document::compare(),
        Group::Inputs => inputs::document::compare(),
        Group::Recovery => recovery::document::compare(),
        Group::Card => card::document::compare(),
    })
}

/// What the threads share.
struct Search<'a> {
    groups: &'a [Group],
    boards: Boards,
    start: Instant,
    /// When the first random block was taken, and for how long they are.
    random_start: OnceLock<Instant>,
    random_time: Duration,
    next_block: AtomicUsize,
    boards_done: AtomicU64,
    /// The difference of the lowest block in which one was found.
    found: Mutex<Option<(usize, Difference)>>,
    is_found: AtomicBool,
}

/// Compares all fixed boards, then random ones for the time asked. Answers what was compared, or a
/// difference.
pub fn run(options: &Options) -> Result<String, String> {
    compare_document(&options.groups).map_err(|difference| difference.to_string())?;
    let search = Search {
        groups: &options.groups,
        boards: Boards::new(options.seed),
        start: Instant::now(),
        random_start: OnceLock::new(),
        random_time: Duration::from_secs(options.seconds),
        next_block: AtomicUsize::new(0),
        boards_done: AtomicU64::new(0),
        found: Mutex::new(None),
        is_found: AtomicBool::new(false),
    };
    let counts = search.on_threads(options.threads);
    let Options { seed, threads, .. } = options;
    let found = search.found.into_inner().expect("no worker panicked");
    if let Some((block, difference)) = found {
        let kind = kinds()[search.boards.block(block).0];
        return Err(format!("{difference}\nin block {block} of seed {seed}, {kind}"));
    }
    Ok(format!(
        "seed {seed}, {} s on {threads} threads: {} boards, no difference\n\n{}",
        search.start.elapsed().as_secs(),
        grouped(search.boards_done.into_inner()),
        tables(&counts).trim_end(),
    ))
}

impl Search<'_> {
    /// All threads' counts, of each kind of input.
    fn on_threads(&self, threads: usize) -> Vec<Counts> {
        let mut counts = vec![Counts::NONE; kinds().len()];
        thread::scope(|scope| {
            let workers: Vec<_> = (0..threads).map(|_| scope.spawn(|| self.work())).collect();
            self.show_progress(&workers);
            for worker in workers {
                let of_worker = worker.join().expect("a panic has said why");
                for (sum, more) in counts.iter_mut().zip(&of_worker) {
                    *sum += more;
                }
            }
        });
        counts
    }

    /// One thread's share, with its counts of each kind of input.
    fn work(&self) -> Vec<Counts> {
        let mut counts = vec![Counts::NONE; kinds().len()];
        let mut comparison = Comparison { groups: self.groups, lists: moves::Lists::new() };
        while let Some(number) = self.next() {
            let (kind, boards) = self.boards.block(number);
            for board in boards.iter() {
                if let Err(difference) = comparison.compare(board, &mut counts[kind]) {
                    self.report(number, difference);
                    return counts;
                }
            }
            counts[kind].boards += boards.len() as u64;
            self.boards_done.fetch_add(boards.len() as u64, Relaxed);
        }
        counts
    }

    /// The next block to compare, none where the time is over or a difference is found.
    fn next(&self) -> Option<usize> {
        let number = self.next_block.fetch_add(1, Relaxed);
        let is_due = number < self.boards.first_random() || self.has_time();
        (is_due && !self.is_found.load(Relaxed)).then_some(number)
    }

    /// Whether there is time left for random blocks.
    fn has_time(&self) -> bool {
        self.random_start.get_or_init(Instant::now).elapsed() < self.random_time
    }

    fn report(&self, block: usize, difference: Difference) {
        self.is_found.store(true, Relaxed);
        let mut found = self.found.lock().expect("no worker panicked");
        if found.as_ref().is_none_or(|(earlier, _)| block < *earlier) {
            *found = Some((block, difference));
        }
    }

    /// Says from time to time how far it is, until the workers are done.
    fn show_progress(&self, workers: &[ScopedJoinHandle<'_, Vec<Counts>>]) {
        let mut next = Duration::from_secs(5);
        while !workers.iter().all(ScopedJoinHandle::is_finished) {
            thread::sleep(Duration::from_millis(50));
            if self.start.elapsed() >= next {
                let boards = grouped(self.boards_done.load(Relaxed));
                eprintln!("{} s: {boards} boards, no difference", next.as_secs());
                next += Duration::from_secs(5);
            }
        }
    }
}
