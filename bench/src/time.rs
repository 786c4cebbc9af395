//! Times of two calls in one run, in turn, so that both see the same machine.

use std::hint::black_box;
use std::time::Instant;

use crate::count::{count, counting};

const ROUNDS: usize = 201;
/// How long one batch should take, in seconds.
const BATCH: f64 = 0.000_2;

/// Nanoseconds for one call of the library and of the independent program.
#[derive(Clone, Copy, Default)]
pub struct Times {
    pub library: f64,
    pub independent: f64,
    /// The library's time over the independent program's: the median over neighbouring batches.
    pub ratio: f64,
}

fn batch(call: &mut dyn FnMut(), count: usize) -> f64 {
    let start = Instant::now();
    for _ in 0..count {
        call();
    }
    start.elapsed().as_secs_f64()
}

/// How many calls make a batch.
fn batch_size(call: &mut dyn FnMut()) -> usize {
    let mut count = 1;
    loop {
        let time = batch(call, count);
        if time > BATCH / 4.0 {
            return ((count as f64 * BATCH / time) as usize).max(1);
        }
        count *= 2;
    }
}

fn median(mut times: Vec<f64>) -> f64 {
    times.sort_by(f64::total_cmp);
    times[times.len() / 2]
}

/// The medians over batches that alternate.
pub fn medians(row: &str, library: &mut dyn FnMut(), independent: &mut dyn FnMut()) -> Times {
    let [library, independent, ratio] = pair(row, ["library", "independent"], library, independent);
    Times {
        library,
        independent,
        ratio,
    }
}

/// Nanoseconds of two calls, named by their sides, and the median of the first's over the second's.
pub fn pair(
    row: &str,
    sides: [&str; 2],
    first: &mut dyn FnMut(),
    second: &mut dyn FnMut(),
) -> [f64; 3] {
    if counting() {
        count(row, sides[0], first);
        count(row, sides[1], second);
        return [0.0; 3];
    }
    let sizes = (batch_size(first), batch_size(second));
    let mut times = (vec![], vec![]);
    for _ in 0..ROUNDS {
        times.0.push(batch(first, sizes.0) / sizes.0 as f64);
        times.1.push(batch(second, sizes.1) / sizes.1 as f64);
    }
    let ratios = times.0.iter().zip(&times.1).map(|(a, b)| a / b).collect();
    let ratio = median(ratios);
    [1e9 * median(times.0), 1e9 * median(times.1), ratio]
}

/// Nanoseconds of one call that has nothing to be held to; its instructions are not counted.
#[cfg(feature = "evaluate_version")]
pub fn alone(call: &mut dyn FnMut()) -> f64 {
    if counting() {
        return 0.0;
    }
    let size = batch_size(call);
    let times = (0..ROUNDS).map(|_| batch(call, size) / size as f64);
    1e9 * median(times.collect())
}

/// Takes an answer, so that the call that gave it is not left out.
pub fn keep<T>(answer: T) {
    black_box(answer);
}
