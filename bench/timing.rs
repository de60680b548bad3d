//! Times several sides in turn, so what slows the machine slows all of them.

use std::time::{Duration, Instant};

/// The number of rounds. Each side is timed once a round, and a ratio is the median over the
/// rounds.
const ROUNDS: usize = 31;

/// The shortest time for which a side is called repeatedly in one round.
const SHORTEST: Duration = Duration::from_millis(10);

/// A side: a function that is timed.
pub type Side<'a> = &'a dyn Fn() -> u64;

/// The time of a call of each side in seconds, for each round.
pub struct Rounds<const N: usize>(Vec<[f64; N]>);

impl<const N: usize> Rounds<N> {
    pub fn of(sides: [Side; N]) -> Rounds<N> {
        let calls = sides.map(calls_for);
        let round = || {
            std::array::from_fn(|side| seconds(sides[side], calls[side]) / f64::from(calls[side]))
        };
        Rounds((0..ROUNDS).map(|_| round()).collect())
    }

    /// The ratio of the time of one side to that of another: the median over the rounds.
    pub fn ratio(&self, side: usize, other: usize) -> f64 {
        median(
            self.0
                .iter()
                .map(|times| times[side] / times[other])
                .collect(),
        )
    }
}

/// The time in seconds of this number of calls of a side.
pub fn seconds(side: Side, calls: u32) -> f64 {
    let start = Instant::now();
    for _ in 0..calls {
        std::hint::black_box(side());
    }
    start.elapsed().as_secs_f64()
}

/// The median.
pub fn median(mut values: Vec<f64>) -> f64 {
    values.sort_by(f64::total_cmp);
    values[values.len() / 2]
}

/// The number of calls of a side that take at least the shortest time of a round.
fn calls_for(side: Side) -> u32 {
    let mut calls = 1;
    while seconds(side, calls) < SHORTEST.as_secs_f64() {
        calls *= 2;
    }
    calls
}
