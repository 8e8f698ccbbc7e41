//! What was compared: calls by entry, by kind of input and by answer.

use crate::answer::unpacked;
use crate::boards::kinds;
use std::fmt::Write;
use std::ops::AddAssign;

/// The entries of the C interface.
#[derive(Clone, Copy)]
pub enum Entry {
    Check,
    Switch,
    Step,
    Result,
    List,
    Count,
    End,
    Key,
    BoardOfKey,
    ContactInputs,
    RaceInputs,
    ContactInput,
    RaceInput,
    Recover,
    CardBegin,
    CardAdd,
    CardRead,
    CardPosition,
}

/// Their names, in the enum's order.
const ENTRIES: [&str; 18] = [
    "check",
    "switch",
    "step",
    "result",
    "list",
    "count",
    "end",
    "key",
    "board_of_key",
    "contact_inputs",
    "race_inputs",
    "contact_input",
    "race_input",
    "recover",
    "card_begin",
    "card_add",
    "card_read",
    "card_position",
];

const REFUSALS: usize = 37;
const RESULTS: usize = 8;

/// Steps of a play, from none to four.
const STEPS: usize = 5;

/// What was compared of one kind of input.
#[derive(Clone, Copy)]
pub struct Counts {
    pub boards: u64,
    /// For each entry its answers, by refusal number; 0 counts those that were not refused.
    answers: [[u64; REFUSALS]; ENTRIES.len()],
    /// For each entry the answers that wildbg judged too.
    judged: [u64; ENTRIES.len()],
    /// What the entry `result` said, by its number.
    results: [u64; RESULTS],
    /// Ends whose steps the entry `recover` told, by their number.
    steps: [u64; STEPS],
    /// Boards with a roll whose whole list was compared, the ends of all of them, and of the one
    /// that has the most.
    rolls: u64,
    ends: u64,
    most_ends: u64,
    /// Games whose card was read, the turns of all of them, and of the one that has the most; and
    /// damaged cards.
    games: u64,
    turns: u64,
    most_turns: u64,
    damaged: u64,
}

impl Counts {
    pub const NONE: Counts = Counts {
        boards: 0,
        answers: [[0; REFUSALS]; ENTRIES.len()],
        judged: [0; ENTRIES.len()],
        results: [0; RESULTS],
        steps: [0; STEPS],
        rolls: 0,
        ends: 0,
        most_ends: 0,
        games: 0,
        turns: 0,
        most_turns: 0,
        damaged: 0,
    };

    /// Counts one call.
    pub fn add(&mut self, entry: Entry, packed: u64, judged: bool) {
        let (refusal, value) = unpacked(packed);
        self.answers[entry as usize][usize::from(refusal)] += 1;
        self.judged[entry as usize] += u64::from(judged);
        if matches!(entry, Entry::Result) && refusal == 0 {
            self.results[value as usize] += 1;
        }
        if matches!(entry, Entry::Recover) && refusal == 0 {
            self.steps[value as usize] += 1;
        }
    }

    /// Counts a board with a roll, and its ends.
    pub fn add_roll(&mut self, ends: u64) {
        self.rolls += 1;
        self.ends += ends;
        self.most_ends = self.most_ends.max(ends);
    }

    /// Counts a game whose card was read.
    pub fn add_game(&mut self, turns: u64) {
        self.games += 1;
        self.turns += turns;
        self.most_turns = self.most_turns.max(turns);
    }

    /// Counts a card that may be damaged.
    pub fn add_damaged(&mut self) {
        self.damaged += 1;
    }
}

impl AddAssign<&Counts> for Counts {
    fn add_assign(&mut self, other: &Counts) {
        self.boards += other.boards;
        add_each(self.answers.as_flattened_mut(), other.answers.as_flattened());
        add_each(&mut self.judged, &other.judged);
        add_each(&mut self.results, &other.results);
        add_each(&mut self.steps, &other.steps);
        self.rolls += other.rolls;
        self.ends += other.ends;
        self.most_ends = self.most_ends.max(other.most_ends);
        self.games += other.games;
        self.turns += other.turns;
        self.most_turns = self.most_turns.max(other.most_turns);
        self.damaged += other.damaged;
    }
}

fn add_each(sums: &mut [u64], more: &[u64]) {
    for (sum, more) in sums.iter_mut().zip(more) {
        *sum += more;
    }
}

/// The counts of every kind of input, as tables for people.
pub fn tables(counts: &[Counts]) -> String {
    let mut total = Counts::NONE;
    counts.iter().for_each(|counts| total += counts);
    let named: Vec<_> = kinds().into_iter().zip(counts).chain([("all", &total)]).collect();
    let is_called = |entry: &usize| total.answers[*entry].iter().any(|&calls| calls > 0);
    let entries: Vec<usize> = (0..ENTRIES.len()).filter(is_called).collect();
    let mut tables = vec![calls_by_kind(&named, &entries), calls_by_answer(&total, &entries)];
    if total.rolls > 0 {
        tables.push(rolls_by_kind(&named));
    }
    if total.results.iter().any(|&boards| boards > 0) {
        tables.push(by_number("result", &total.results));
    }
    if total.steps.iter().any(|&ends| ends > 0) {
        tables.push(by_number("steps", &total.steps));
    }
    if total.games > 0 {
        tables.push(games_by_kind(&named));
    }
    tables.join("\n")
}

fn calls_by_kind(named: &[(&str, &Counts)], entries: &[usize]) -> String {
    let mut table = row("kind of input", &[&["boards"], &names(entries)[..]].concat());
    for (name, counts) in named {
        let calls = entries.iter().map(|&entry| counts.answers[entry].iter().sum());
        let cells: Vec<String> = [counts.boards].into_iter().chain(calls).map(grouped).collect();
        table += &row(name, &cells);
    }
    table
}

fn calls_by_answer(total: &Counts, entries: &[usize]) -> String {
    let mut table = row("answer", &names(entries));
    for refusal in 0..REFUSALS {
        let calls: Vec<u64> = entries.iter().map(|&entry| total.answers[entry][refusal]).collect();
        if calls.iter().any(|&calls| calls > 0) {
            let name = format!("refusal {refusal}");
            let name = if refusal == 0 { "not refused" } else { &name };
            table += &row(name, &calls.into_iter().map(grouped).collect::<Vec<_>>());
        }
    }
    let judged: Vec<String> = entries.iter().map(|&entry| grouped(total.judged[entry])).collect();
    table + &row("judged by wildbg too", &judged)
}

fn names(entries: &[usize]) -> Vec<&'static str> {
    entries.iter().map(|&entry| ENTRIES[entry]).collect()
}

fn rolls_by_kind(named: &[(&str, &Counts)]) -> String {
    let mut table = row("kind of input", &["with a roll", "ends", "most ends"]);
    for (name, counts) in named {
        table += &row(name, &[counts.rolls, counts.ends, counts.most_ends].map(grouped));
    }
    table
}

fn games_by_kind(named: &[(&str, &Counts)]) -> String {
    let mut table = row("kind of input", &["games", "turns", "most turns", "damaged cards"]);
    for (name, counts) in named {
        let Counts { games, turns, most_turns, damaged, .. } = **counts;
        table += &row(name, &[games, turns, most_turns, damaged].map(grouped));
    }
    table
}

/// What was answered, a line for each number.
fn by_number(what: &str, answers: &[u64]) -> String {
    let lines = answers.iter().enumerate();
    lines.map(|(number, &times)| row(&format!("{what} {number}"), &[grouped(times)])).collect()
}

/// One line of a table.
fn row(name: &str, cells: &[impl AsRef<str>]) -> String {
    let mut line = format!("{name:<24}");
    for cell in cells {
        write!(line, "{:>15}", cell.as_ref()).expect("a string takes all");
    }
    line + "\n"
}

/// A number with a comma at each thousand.
pub fn grouped(number: u64) -> String {
    let digits = number.to_string();
    let mut text = String::new();
    for (i, digit) in digits.chars().enumerate() {
        if i > 0 && (digits.len() - i).is_multiple_of(3) {
            text.push(',');
        }
        text.push(digit);
    }
    text
}
