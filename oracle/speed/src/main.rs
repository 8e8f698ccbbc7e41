//! How long the library and wildbg take for the ends of a roll, all of them or one by its number,
//! for the inputs of the nets, for keys and for the steps to an end; how long the library takes for
//! a card; and how both grow with the ends of a roll and the turns of a card. `oracle/bench` builds
//! and starts it, and says how it is used.

#![forbid(unsafe_code)]

mod card;
mod corpus;
mod growth;
mod inputs;
mod key;
mod numbered;
mod recovery;
#[path = "../../src/rng.rs"]
#[allow(dead_code, reason = "the comparison uses all of it")]
mod rng;
mod routines;
mod timing;

use card::Card;
use corpus::Turn;
use engine::position::Position;
use inputs::NETS;
use key::Keyed;
use munchalep::Board;
use routines::Routines;
use timing::{RUNS, beside_wildbg, nanos};

const SEED: u64 = 1;
const BOARDS: usize = 10_000;
const SPREAD_BOARDS: usize = 2_000;

/// A selection of turns, by name.
type Selection = (&'static str, Vec<Turn>);

fn main() {
    let boards = corpus::boards(SEED, BOARDS);
    println!("{BOARDS} boards of random play, seed {SEED}, {RUNS} runs, the shortest of each");
    print_ends(&boards);
    print_numbered(&boards);
    print_inputs(&boards);
    print_keys(&boards);
    print_recovery(&boards);
    print_growth(&boards);
    print_cards();
}

/// Prints a table's title, and the names of its columns: those of the rows and those of routines.
fn print_head(title: &str, columns: &[&str], routines: &[&str]) {
    let columns = [columns, routines].concat();
    println!("\n{title}\n\n| {} |\n|{}", columns.join(" | "), "---|".repeat(columns.len()));
}

/// The boards with all rolls, with doubles and with mixed rolls.
fn selections(boards: &[Position]) -> [Selection; 3] {
    let all = corpus::turns(boards);
    let (doubles, mixed) = all.iter().copied().partition(Turn::is_double);
    [("all 21 rolls", all), ("doubles", doubles), ("mixed rolls", mixed)]
}

fn print_ends(boards: &[Position]) {
    let columns = ["rolls", "calls", "ends a call", "most ends"];
    print_head("The ends of a roll", &columns, &routines::NAMES);
    for (name, turns) in selections(boards) {
        let mut routines = Routines::new();
        let (ends, most) = (routines.ends(&turns), routines.most_ends(&turns));
        let (calls, ends_a_call) = (turns.len(), ends as f64 / turns.len() as f64);
        let nanos = nanos(routines::NAMES, ends, calls, |routine| routines.run(routine, &turns));
        let times = beside_wildbg(nanos);
        println!("| {name} | {calls} | {ends_a_call:.1} | {most} | {times} |");
    }
}

fn print_numbered(boards: &[Position]) {
    print_head("The end by its number", &["rolls", "calls"], &numbered::NAMES);
    for (name, turns) in selections(boards) {
        let played = corpus::played(&turns, SEED);
        assert!(numbered::agree(&played), "{name}: another end");
        let calls = played.len();
        let run = |routine| numbered::run(routine, &played);
        let nanos = nanos(numbered::NAMES, calls, calls, run);
        println!("| {name} | {calls} | {} |", beside_wildbg(nanos));
    }
}

fn print_inputs(boards: &[Position]) {
    let boards: Vec<(Position, Board)> =
        boards.iter().map(|&position| (position, position.into())).collect();
    let calls = boards.len();
    print_head("The inputs of the nets", &["net", "calls", "inputs"], &inputs::NAMES);
    for net in NETS {
        assert!(net.agree(&boards), "{}: other inputs", net.name);
        let run = |routine| net.run(routine, &boards);
        let times = beside_wildbg(nanos(inputs::NAMES, calls, calls, run));
        println!("| {} | {calls} | {} | {times} |", net.name, net.inputs);
    }
}

fn print_keys(boards: &[Position]) {
    let boards: Vec<Keyed> = boards.iter().copied().map(Keyed::new).collect();
    assert!(boards.iter().all(Keyed::agrees), "another key or another board");
    let calls = boards.len();
    print_head("The key of a board", &["key", "calls"], &key::NAMES);
    for (name, run) in key::WAYS {
        let nanos = nanos(key::NAMES, calls, calls, |routine| run(routine, &boards));
        println!("| {name} | {calls} | {} |", beside_wildbg(nanos));
    }
}

fn print_recovery(boards: &[Position]) {
    let columns = ["rolls", "calls", "steps a call"];
    print_head("The steps to an end", &columns, &recovery::NAMES);
    for (name, turns) in selections(boards) {
        let played = corpus::played(&turns, SEED);
        let (calls, steps) = (played.len(), recovery::run(0, &played));
        let run = |routine| recovery::run(routine, &played);
        let times = beside_wildbg(nanos(recovery::NAMES, steps, calls, run));
        println!("| {name} | {calls} | {:.2} | {times} |", steps as f64 / calls as f64);
    }
}

fn print_growth(boards: &[Position]) {
    let boards = [boards, &corpus::spread_boards(SEED, SPREAD_BOARDS)].concat();
    let (columns, mut routines) = (["ends, at least", "calls", "ends a call"], Routines::new());
    print_head("A call by the ends", &columns, &growth::NAMES);
    for group in growth::groups(&corpus::turns(&boards), SEED) {
        assert!(group.agrees(&mut routines), "other ends or other steps");
        let (calls, ends) = (group.turns.len(), routines.ends(&group.turns));
        let run = |routine| group.run(routine, &mut routines);
        let times = nanos(growth::NAMES, calls, calls, run).map(|time| format!("{time:.0} ns"));
        let (ends_a_call, times) = (ends as f64 / calls as f64, times.join(" | "));
        println!("| {} | {calls} | {ends_a_call:.1} | {times} |", group.fewest);
    }
}

fn print_cards() {
    let longest = card::longest(SEED);
    print_head("A card by its turns", &["turns"], &card::NAMES);
    for turns in card::TURNS {
        let mut card = Card::first_turns(&longest, turns);
        let calls = card.calls();
        let nanos = nanos(card::NAMES, calls, calls, |routine| card.run(routine));
        let times = nanos.map(|time| format!("{:.2} µs", time / 1000.0));
        println!("| {turns} | {} |", times.join(" | "));
    }
}
