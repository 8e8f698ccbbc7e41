//! How long routines take.

use std::time::{Duration, Instant};

/// Runs of each routine: so many that the machine is not slow in all of them.
pub const RUNS: usize = 60;

/// The nanoseconds that a call of each routine takes in its shortest run. All have to find the
/// same. The routines take turns, so that what else the machine does falls on all of them.
pub fn nanos<const N: usize>(
    names: [&str; N],
    finds: usize,
    calls: usize,
    mut run: impl FnMut(usize) -> usize,
) -> [f64; N] {
    let mut shortest = [Duration::MAX; N];
    for _ in 0..RUNS {
        for (routine, shortest) in shortest.iter_mut().enumerate() {
            let start = Instant::now();
            let found = run(routine);
            *shortest = start.elapsed().min(*shortest);
            assert_eq!(found, finds, "{} finds another number", names[routine]);
        }
    }
    shortest.map(|time| time.as_nanos() as f64 / calls as f64)
}

/// The cells of some routines, wildbg's first: the time of each, and how many times as fast as
/// wildbg it is.
pub fn beside_wildbg<const N: usize>(nanos: [f64; N]) -> String {
    nanos.map(|time| format!("{time:.0} ns ({:.2})", nanos[0] / time)).join(" | ")
}
