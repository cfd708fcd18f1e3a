//! The routines of an accepted book that nobody starts.

use super::{counts, routine_steps};
use crate::game::MOST_ROUTINES;
use crate::steps::START;

/// Whether a chain of start steps leads from routine 0 to each routine.
fn started(book: &[u8]) -> [bool; MOST_ROUTINES] {
    let mut found = [false; MOST_ROUTINES];
    let mut order = [0; MOST_ROUTINES];
    found[0] = true;
    let (mut next, mut all) = (0, 1);
    while next < all {
        for step in routine_steps(book, order[next]) {
            let routine = step[1] as usize;
            if step[0] == START && !found[routine] {
                found[routine] = true;
                order[all] = routine;
                all += 1;
            }
        }
        next += 1;
    }
    found
}

/// Writes the names of the others, and tells how many they are.
pub fn name_unstarted(book: &[u8], names: &mut [u8]) -> usize {
    let found = started(book);
    let mut count = 0;
    for routine in 0..counts(book).routines {
        if !found[routine] {
            names[count] = routine as u8;
            count += 1;
        }
    }
    count
}
