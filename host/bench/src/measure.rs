//! The clock: things run in turn, the least and the median of each. Other work on the machine only
//! adds, so the least says more than the median.

use std::time::Instant;

/// The least and the median of some runs.
#[derive(Clone, Copy, Debug, Default)]
pub struct Pair {
    /// The least.
    pub least: f64,
    /// The median.
    pub median: f64,
}

impl Pair {
    /// Of the seconds of all runs.
    pub fn of(mut times: Vec<f64>) -> Pair {
        times.sort_by(f64::total_cmp);
        Pair { least: times[0], median: times[times.len() / 2] }
    }

    /// Least less least, median less median.
    pub fn less(self, other: Pair) -> Pair {
        Pair { least: self.least - other.least, median: self.median - other.median }
    }

    /// Both times a number.
    pub fn times(self, by: f64) -> Pair {
        Pair { least: self.least * by, median: self.median * by }
    }
}

/// One run of something: its seconds.
pub type Task<'a> = Box<dyn FnMut() -> f64 + 'a>;

/// Runs every task once, then every task once more, and so on, so that a busy moment meets them all.
pub fn in_turn(runs: usize, mut tasks: Vec<Task>) -> Vec<Pair> {
    let mut times: Vec<Vec<f64>> = tasks.iter().map(|_| Vec::with_capacity(runs)).collect();
    for _ in 0..runs {
        tasks.iter_mut().zip(&mut times).for_each(|(task, times)| times.push(task()));
    }
    times.into_iter().map(Pair::of).collect()
}

/// The seconds of some work.
pub fn clock<T>(work: impl FnOnce() -> T) -> (T, f64) {
    let start = Instant::now();
    let result = work();
    (result, start.elapsed().as_secs_f64())
}
