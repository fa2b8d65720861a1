//! Times: medians of many batches, the sides taking turns.

use super::sides::{Bench, Side};
use std::time::Duration;

/// A batch takes about this long at least.
const BATCH: Duration = Duration::from_micros(200);
/// So many batches of each side, unless they take too long.
const BATCHES: usize = 301;
const FEWEST: usize = 11;
const LONGEST: Duration = Duration::from_secs(4);

/// Nanoseconds for a run of each side, in their order.
pub fn times(bench: &mut Bench, sides: &[Side]) -> Vec<f64> {
    let runs: Vec<usize> = sides.iter().map(|side| runs_of(bench, *side)).collect();
    let mut found: Vec<Vec<f64>> = vec![vec![]; sides.len()];
    let mut spent = Duration::ZERO;
    while found[0].len() < BATCHES && (found[0].len() < FEWEST || spent < LONGEST) {
        for (i, side) in sides.iter().enumerate() {
            // One run that is not timed: the side before has left other things in the caches.
            bench.batch(*side, 1);
            let time = bench.batch(*side, runs[i]);
            spent += time;
            found[i].push(time.as_nanos() as f64 / runs[i] as f64);
        }
    }
    found.into_iter().map(median).collect()
}

/// How many runs make a batch.
fn runs_of(bench: &mut Bench, side: Side) -> usize {
    let mut runs = 1;
    while runs < 1000 && bench.batch(side, runs) < BATCH {
        runs *= 2;
    }
    runs
}

fn median(mut values: Vec<f64>) -> f64 {
    values.sort_by(f64::total_cmp);
    values[values.len() / 2]
}
