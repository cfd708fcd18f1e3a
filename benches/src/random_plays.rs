//! What happens to a game between the rounds of a random play: orders, and changes from outside that may leave it unfit for its book.

use crate::game::{Counts, Game, LIMIT, MOST_ROUTINES};
use crate::plain::{nameable, routine_steps, timed_count, KINDS};
use crate::random::Random;

/// The kind and the number of a random order: mostly of a kind that there is, with a number that it may name.
pub fn random_order(random: &mut Random, counts: Counts) -> (u32, u32) {
    let kinds = KINDS as usize;
    let kind = match random.below(20) {
        0 => kinds + random.below(3),
        _ => random.below(kinds),
    } as u32;
    let count = nameable(counts, kind);
    let number = match random.below(20) {
        0 => count + random.below(3),
        _ => random.below(count.max(1)),
    };
    (kind, number as u32)
}

/// Puts a routine at a random place of its own, in mid-count where the step there has a count: a game that fits still does.
pub fn displace(random: &mut Random, book: &[u8], game: &mut Game) {
    let number = random.below(game.counts.routines);
    let steps = routine_steps(book, number);
    let place = random.below(steps.len() + 1);
    let count = timed_count(steps, place);
    let routine = &mut game.routines[number];
    routine.place = place as u16;
    routine.begun = count > 0 && random.chance(50);
    routine.left = if routine.begun {
        random.below(count as usize) as u32
    } else {
        0
    };
}

/// A number that fits here and there.
fn value(random: &mut Random) -> i64 {
    let far = [-1, LIMIT, LIMIT + 1, -LIMIT, -LIMIT - 1];
    match random.below(4) {
        0 => far[random.below(far.len())].into(),
        1 => 63 + random.below(3) as i64,
        _ => random.below(6) as i64,
    }
}

/// Overwrites one number or flag of a game.
pub fn poke(random: &mut Random, game: &mut Game) {
    let value = value(random);
    let flag = random.chance(50);
    let at = match random.below(3) {
        0 => random.below(MOST_ROUTINES),
        _ => random.below(game.counts.routines.clamp(1, MOST_ROUTINES)),
    };
    let routine = &mut game.routines[at];
    match random.below(18) {
        0 => game.counts.routines = value as usize,
        1 => game.counts.signals = value as usize,
        2 => game.counts.counters = value as usize,
        3 => game.counters[at] = value as i32,
        4 => game.listed.len = value as usize,
        5 => game.listed.items[at] = value as u8,
        6 => game.starting.len = value as usize,
        7 => game.starting.items[at] = value as u8,
        8 => game.broadcast[at] = flag,
        9 | 10 => routine.stage = value as u8,
        11 => routine.place = value as u16,
        12 => routine.left = value as u32,
        13 => routine.suspended = flag,
        14 => routine.begun = flag,
        15 => routine.stopping = flag,
        16 => routine.suspending = flag,
        _ => routine.resuming = flag,
    }
}
