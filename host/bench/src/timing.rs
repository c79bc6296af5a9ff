//! The timing of cases, side by side.

use crate::cases::Case;
use std::hint::black_box;
use std::time::{Duration, Instant};

const ROUNDS: usize = 40;
const SAMPLE: Duration = Duration::from_millis(2);

/// A case with what each of several sides needs to run it, made before anything is timed.
pub trait Timed {
    type Side: Copy;

    fn case(&self) -> &Case;

    /// Asks about every literal of the case, or writes every value, once; the sum is the same for each side that can be compared.
    fn run(&mut self, side: Self::Side) -> u64;

    /// Whether all sides that can be compared give the same.
    fn agrees(&mut self) -> bool;

    /// Whether a side's time can be compared with the first one's.
    fn compares(&self, _side: Self::Side) -> bool {
        true
    }
}

/// The nanoseconds that a run of each case takes on each side, the best of several rounds. How many runs a sample has is decided by the first side.
pub fn best<T: Timed, const N: usize>(cases: &mut [T], sides: [T::Side; N]) -> Vec<[f64; N]> {
    let times: Vec<u32> = cases.iter_mut().map(|case| times(case, sides[0])).collect();
    let mut best = vec![[Duration::MAX; N]; cases.len()];
    // interleaved, so that a slow while of the machine meets all sides alike
    for _ in 0..ROUNDS {
        for ((case, best), &times) in cases.iter_mut().zip(&mut best).zip(&times) {
            for (best, side) in best.iter_mut().zip(sides) {
                *best = timed(case, side, times).min(*best);
            }
        }
    }
    let one = |(best, times): ([Duration; N], u32)| best.map(|best| best.as_nanos() as f64 / f64::from(times));
    best.into_iter().zip(times).map(one).collect()
}

/// How many runs of a case make a sample.
fn times<T: Timed>(case: &mut T, side: T::Side) -> u32 {
    let mut times = 1;
    while timed(case, side, times) < SAMPLE {
        times *= 2;
    }
    times
}

fn timed<T: Timed>(case: &mut T, side: T::Side, times: u32) -> Duration {
    let began = Instant::now();
    for _ in 0..times {
        black_box(case.run(side));
    }
    began.elapsed()
}
