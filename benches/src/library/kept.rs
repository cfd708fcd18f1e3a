//! The library's calls on games that are kept as stored bytes: a game is the first `length` bytes of a buffer.

use crate::game::{Round, Stored};
use crate::verdict::Verdict;

extern "C" {
    fn zulqenat_fits(
        book: *const u8,
        size: usize,
        game: *const u8,
        room: usize,
        length: usize,
    ) -> Verdict;

    fn zulqenat_stored_length(book: *const u8, size: usize, game: *const u8, room: usize)
        -> Stored;

    fn zulqenat_set_up(book: *const u8, size: usize, game: *mut u8, room: usize) -> Stored;

    fn zulqenat_order(
        book: *const u8,
        size: usize,
        game: *mut u8,
        room: usize,
        length: usize,
        kind: u32,
        number: u32,
    ) -> Stored;

    fn zulqenat_play(
        book: *const u8,
        size: usize,
        game: *mut u8,
        room: usize,
        length: usize,
        marks: *mut i32,
        numbers: usize,
    ) -> Round;
}

/// Whether the kept game fits a book.
pub fn fits(book: &[u8], buffer: &[u8], length: usize) -> Verdict {
    let (game, room) = (buffer.as_ptr(), buffer.len());
    // SAFETY: the pointers and lengths are those of two slices, which the call only reads and does not keep.
    unsafe { zulqenat_fits(book.as_ptr(), book.len(), game, room, length) }
}

/// How long the stored game is that a buffer begins with.
pub fn stored_length(book: &[u8], buffer: &[u8]) -> Stored {
    // SAFETY: the pointers and lengths are those of two slices, which the call only reads and does not keep.
    unsafe { zulqenat_stored_length(book.as_ptr(), book.len(), buffer.as_ptr(), buffer.len()) }
}

/// Sets up a game.
#[inline(always)]
pub fn set_up(book: &[u8], buffer: &mut [u8]) -> Stored {
    let (room, game) = (buffer.len(), buffer.as_mut_ptr());
    // SAFETY: the pointers and lengths are those of two slices; the call reads the first, writes the second and keeps neither.
    unsafe { zulqenat_set_up(book.as_ptr(), book.len(), game, room) }
}

/// Gives the kept game an order.
#[inline(always)]
pub fn order(book: &[u8], buffer: &mut [u8], length: usize, kind: u32, number: u32) -> Stored {
    let (room, game) = (buffer.len(), buffer.as_mut_ptr());
    // SAFETY: the pointers and lengths are those of two slices; the call reads the first, reads and writes the second and keeps neither.
    unsafe { zulqenat_order(book.as_ptr(), book.len(), game, room, length, kind, number) }
}

/// Plays a round of the kept game.
#[inline(always)]
pub fn play(book: &[u8], buffer: &mut [u8], length: usize, marks: &mut [i32]) -> Round {
    let (room, game) = (buffer.len(), buffer.as_mut_ptr());
    let (numbers, marks) = (marks.len(), marks.as_mut_ptr());
    // SAFETY: the pointers and lengths are those of three slices; the call reads the first two, writes the last two and keeps none.
    unsafe {
        zulqenat_play(
            book.as_ptr(),
            book.len(),
            game,
            room,
            length,
            marks,
            numbers,
        )
    }
}
