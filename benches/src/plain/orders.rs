//! Outside orders.

use crate::game::{Counts, Game};

/// The kinds of an order.
const BROADCAST: u32 = 0;
const START: u32 = 1;
const STOP: u32 = 2;
const SUSPEND: u32 = 3;
const RESUME: u32 = 4;

/// How many kinds there are.
pub const KINDS: u32 = 5;

/// How many numbers an order of this kind may name in a book with these counts.
pub fn nameable(counts: Counts, kind: u32) -> usize {
    match kind {
        BROADCAST => counts.signals,
        START | STOP | SUSPEND | RESUME => counts.routines,
        _ => 0,
    }
}

/// An order joins its list or set for the next round. Its kind may name the number. As with `fits`, it is compiled into its callers.
#[inline(always)]
pub fn obey(game: &mut Game, kind: u32, number: usize) {
    match kind {
        BROADCAST => game.broadcast[number] = true,
        START => game.start(number),
        STOP => game.routines[number].stopping = true,
        SUSPEND => game.routines[number].suspending = true,
        RESUME => game.routines[number].resuming = true,
        _ => {}
    }
}
