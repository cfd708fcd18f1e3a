//! Times the same work on two sides, a batch of either in turn.

use std::hint::black_box;
use std::time::Instant;

use crate::game::{Game, Played};

pub const BATCHES: usize = 501;

/// How many nanoseconds a batch takes, about.
const BATCH: f64 = 300_000.0;

/// Nanoseconds that a piece of work takes, over one batch.
fn batch(work: &mut impl FnMut(), repeats: usize) -> f64 {
    let start = Instant::now();
    for _ in 0..repeats {
        work();
    }
    start.elapsed().as_nanos() as f64 / repeats as f64
}

fn median(mut times: Vec<f64>) -> f64 {
    times.sort_by(f64::total_cmp);
    times[times.len() / 2]
}

/// The median nanoseconds for a call on each side, whose work is so many calls.
pub fn medians(calls: usize, mut first: impl FnMut(), mut second: impl FnMut()) -> (f64, f64) {
    let once = batch(&mut first, 10).max(batch(&mut second, 10));
    let repeats = (BATCH / once).ceil() as usize;
    let (mut first_times, mut second_times) = (Vec::new(), Vec::new());
    for _ in 0..BATCHES {
        first_times.push(batch(&mut first, repeats) / calls as f64);
        second_times.push(batch(&mut second, repeats) / calls as f64);
    }
    (median(first_times), median(second_times))
}

/// Plays a round from each game. Both sides take the game by value and answer by value, and all of that is counted: copying the recorded
/// game for the call, the call, and writing an answer with the game given back. The plain version plays on the copy that it is given.
#[inline(always)]
pub fn play_all(
    round: impl Fn(&[u8], Game, &mut [i32]) -> Played,
    book: &[u8],
    games: &[Game],
    marks: &mut [i32],
) {
    for game in games {
        black_box(&round(black_box(book), *black_box(game), marks));
    }
}
