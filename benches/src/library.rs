//! The library's calls.

pub mod kept;

use crate::game::{Game, Outcome, Played, Stored};
use crate::verdict::{Part, UnstartedNames, Verdict};

extern "C" {
    fn zulqenat_check_book(book: *const u8, length: usize) -> Verdict;

    fn zulqenat_unstarted(
        book: *const u8,
        length: usize,
        names: *mut u8,
        room: usize,
    ) -> UnstartedNames;

    fn zulqenat_show(book: *const u8, length: usize, routine: u32) -> Part;

    fn by_value_fits(book: *const u8, length: usize, game: Game) -> bool;

    fn by_value_set_up(book: *const u8, length: usize, game: Game) -> Outcome;

    fn by_value_order(
        book: *const u8,
        length: usize,
        game: Game,
        kind: u32,
        number: u32,
    ) -> Outcome;

    fn by_value_store(
        book: *const u8,
        length: usize,
        game: Game,
        out: *mut u8,
        room: usize,
    ) -> Stored;

    fn by_value_load(
        book: *const u8,
        length: usize,
        bytes: *const u8,
        count: usize,
        game: Game,
    ) -> Outcome;

    fn by_value_play(
        book: *const u8,
        length: usize,
        game: Game,
        marks: *mut i32,
        room: usize,
    ) -> Played;

    fn by_value_round(
        book: *const u8,
        length: usize,
        game: Game,
        marks: *mut i32,
        room: usize,
    ) -> Played;
}

/// Reads a book.
pub fn read(book: &[u8]) -> Verdict {
    // SAFETY: the pointer and the length are those of a slice, which the call only reads and does not keep.
    unsafe { zulqenat_check_book(book.as_ptr(), book.len()) }
}

/// Names the routines that nobody starts.
pub fn unstarted(book: &[u8], names: &mut [u8]) -> UnstartedNames {
    // SAFETY: the pointers and lengths are those of two slices; the call reads the first, writes the second and keeps neither.
    unsafe { zulqenat_unstarted(book.as_ptr(), book.len(), names.as_mut_ptr(), names.len()) }
}

/// Where the steps of a routine stand in a book.
pub fn show(book: &[u8], routine: u32) -> Part {
    // SAFETY: the pointer and the length are those of a slice, which the call only reads and does not keep.
    unsafe { zulqenat_show(book.as_ptr(), book.len(), routine) }
}

/// Whether a game fits a book.
#[inline(always)]
pub fn fits(book: &[u8], game: Game) -> bool {
    // SAFETY: the pointer and the length are those of a slice, which the call only reads and does not keep.
    unsafe { by_value_fits(book.as_ptr(), book.len(), game) }
}

/// Sets up a game.
#[inline(always)]
pub fn set_up(book: &[u8], game: Game) -> Outcome {
    // SAFETY: the pointer and the length are those of a slice, which the call only reads and does not keep.
    unsafe { by_value_set_up(book.as_ptr(), book.len(), game) }
}

/// Gives a game an order.
#[inline(always)]
pub fn order(book: &[u8], game: Game, kind: u32, number: u32) -> Outcome {
    // SAFETY: the pointer and the length are those of a slice, which the call only reads and does not keep.
    unsafe { by_value_order(book.as_ptr(), book.len(), game, kind, number) }
}

/// Stores a game.
#[inline(always)]
pub fn store(book: &[u8], game: Game, out: &mut [u8]) -> Stored {
    // SAFETY: the pointers and lengths are those of two slices; the call reads the first, writes the second and keeps neither.
    unsafe { by_value_store(book.as_ptr(), book.len(), game, out.as_mut_ptr(), out.len()) }
}

/// Replaces a lent game by a stored one.
#[inline(always)]
pub fn load(book: &[u8], bytes: &[u8], game: Game) -> Outcome {
    // SAFETY: the pointers and lengths are those of two slices, which the call only reads and does not keep.
    unsafe { by_value_load(book.as_ptr(), book.len(), bytes.as_ptr(), bytes.len(), game) }
}

/// Plays a round, after the checks.
#[inline(always)]
pub fn play(book: &[u8], game: Game, marks: &mut [i32]) -> Played {
    // SAFETY: the pointers and lengths are those of two slices; the call reads the first, writes the second and keeps neither.
    unsafe {
        by_value_play(
            book.as_ptr(),
            book.len(),
            game,
            marks.as_mut_ptr(),
            marks.len(),
        )
    }
}

/// Plays a round without the checks.
///
/// # Safety
/// The book is accepted, the game fits it, and `marks` has room for two numbers for each of the book's mark steps.
#[inline(always)]
pub unsafe fn round(book: &[u8], game: Game, marks: &mut [i32]) -> Played {
    by_value_round(
        book.as_ptr(),
        book.len(),
        game,
        marks.as_mut_ptr(),
        marks.len(),
    )
}
