//! Whether a game fits a book.

use super::{counts, routine_steps};
use crate::game::{Game, Line, Routine, LIMIT, MOST_ROUTINES};
use crate::game::{CONTINUING, ENDED, NOT_STARTED, RESTED, STOPPED};
use crate::steps::{fields, Step, JOIN_FOR, REST_FOR, WAIT_FOR};

/// The routines of a list, as flags, if the list fits.
fn members(line: &Line, routines: usize) -> Option<[bool; MOST_ROUTINES]> {
    let (entries, rest) = line.items.split_at_checked(line.len)?;
    let mut found = [false; MOST_ROUTINES];
    for &entry in entries {
        let entry = usize::from(entry);
        if entry >= routines || found[entry] {
            return None;
        }
        found[entry] = true;
    }
    rest.iter().all(|&entry| entry == 0).then_some(found)
}

/// The count of the timed step at a place; 0 where there is none.
pub fn timed_count(steps: &[Step], place: usize) -> u32 {
    match steps.get(place) {
        Some(step @ &[REST_FOR | WAIT_FOR | JOIN_FOR, ..]) => fields(step).2.max(0) as u32,
        _ => 0,
    }
}

fn stage_fits(stage: u8, is_listed: bool, is_to_start: bool) -> bool {
    let listing_fits = match stage {
        NOT_STARTED | STOPPED => !is_listed,
        CONTINUING | RESTED => is_listed,
        ENDED => true,
        _ => false,
    };
    listing_fits && (!is_to_start || stage == NOT_STARTED)
}

fn position_fits(steps: &[Step], routine: &Routine) -> bool {
    let place = usize::from(routine.place);
    place <= steps.len()
        && if routine.begun {
            routine.left < timed_count(steps, place)
        } else {
            routine.left == 0
        }
}

/// Whether a game fits an accepted book. All its callers are timed, so it is compiled into each.
#[inline(always)]
pub fn fits(book: &[u8], game: &Game) -> bool {
    let counts = counts(book);
    if game.counts != counts {
        return false;
    }
    let (routines, no_routines) = game.routines.split_at(counts.routines);
    let (counters, no_counters) = game.counters.split_at(counts.counters);
    let no_signals = &game.broadcast[counts.signals..];
    let (Some(listed), Some(starting)) = (
        members(&game.listed, counts.routines),
        members(&game.starting, counts.routines),
    ) else {
        return false;
    };
    let routine_fits = |(number, routine): (usize, &Routine)| {
        stage_fits(routine.stage, listed[number], starting[number])
            && position_fits(routine_steps(book, number), routine)
    };
    counters
        .iter()
        .all(|value| (-LIMIT..=LIMIT).contains(value))
        && no_counters.iter().all(|&value| value == 0)
        && no_signals.iter().all(|&is_set| !is_set)
        && routines.iter().enumerate().all(routine_fits)
        && no_routines
            .iter()
            .all(|routine| *routine == Routine::default())
}
