//! The calls on games that are kept as stored bytes: the game is read, called on and stored again, and each check is made once.

use super::{check_load, counts, mark_steps, nameable, obey, play_round, reading, refuse, stored};
use crate::game::{Counts, Game, Round, Stored, MOST_COUNTERS, MOST_ROUTINES, MOST_STORED};
use crate::verdict::Verdict;

/// The game in the first `length` bytes of a buffer, after the checks of reading it. A buffer that is shorter has no bytes of a game.
#[inline(always)]
fn check_kept(book: &[u8], buffer: &[u8], length: usize) -> Result<Game, Verdict> {
    check_load(book, buffer.get(..length).unwrap_or_default())
}

/// Stores a game that fits its book, unless there is no room, 14.
#[inline(always)]
fn keep(game: &Game, buffer: &mut [u8]) -> Result<usize, Verdict> {
    let length = stored::stored_length(game);
    if buffer.len() < length {
        return refuse(14);
    }
    stored::write(game, buffer);
    Ok(length)
}

/// The answer with the stored game's length, or with the refusal.
fn answer(kept: Result<usize, Verdict>) -> Stored {
    let (verdict, length) = match kept {
        Ok(length) => (Verdict::ACCEPTED, length),
        Err(verdict) => (verdict, 0),
    };
    Stored { verdict, length }
}

/// Whether the kept game fits a book.
pub fn fits(book: &[u8], buffer: &[u8], length: usize) -> Verdict {
    let kept = check_kept(book, buffer, length);
    kept.err().unwrap_or(Verdict::ACCEPTED)
}

/// How long the stored game is that a buffer begins with: bytes have its form up to one end at most.
pub fn stored_length(book: &[u8], buffer: &[u8]) -> Stored {
    let is_formed = |&end: &usize| stored::read(&buffer[..end]).is_some();
    let length = (0..=buffer.len()).find(is_formed).unwrap_or(0);
    answer(check_kept(book, buffer, length).map(|_| length))
}

/// Sets up a game.
#[inline(never)]
pub fn set_up(book: &[u8], buffer: &mut [u8]) -> Stored {
    let kept = reading::check(book).and_then(|()| keep(&Game::set_up(counts(book)), buffer));
    answer(kept)
}

#[inline(always)]
fn try_order(
    book: &[u8],
    buffer: &mut [u8],
    length: usize,
    kind: u32,
    number: u32,
) -> Result<usize, Verdict> {
    let mut game = check_kept(book, buffer, length)?;
    if number as usize >= nameable(counts(book), kind) {
        return refuse(8);
    }
    obey(&mut game, kind, number as usize);
    keep(&game, buffer)
}

/// Gives the kept game an order.
#[inline(never)]
pub fn order(book: &[u8], buffer: &mut [u8], length: usize, kind: u32, number: u32) -> Stored {
    answer(try_order(book, buffer, length, kind, number))
}

#[inline(always)]
fn try_play(
    book: &[u8],
    buffer: &mut [u8],
    length: usize,
    marks: &mut [i32],
) -> Result<Round, Verdict> {
    let mut game = check_kept(book, buffer, length)?;
    if marks.len() < 2 * mark_steps(book) {
        return refuse(10);
    }
    let lent = (buffer.len() < MOST_STORED).then(|| marks.to_vec());
    let totals = play_round(book, &mut game, marks);
    let kept = keep(&game, buffer);
    if let (Err(_), Some(lent)) = (kept, lent) {
        marks.copy_from_slice(&lent);
    }
    Ok(Round {
        verdict: Verdict::ACCEPTED,
        length: kept?,
        passes: totals.passes,
        marks: totals.marks,
        lost: totals.lost,
    })
}

/// Plays a round of the kept game. In a buffer that may be too short for the game behind the round, the lent marks are put back if it is.
#[inline(never)]
pub fn play(book: &[u8], buffer: &mut [u8], length: usize, marks: &mut [i32]) -> Round {
    try_play(book, buffer, length, marks).unwrap_or_else(Round::from)
}

/// The bytes of a game, whether it fits a book or not; none where it has more of something than can be written.
pub fn bytes_of(game: &Game) -> Option<Vec<u8>> {
    let Counts {
        routines, counters, ..
    } = game.counts;
    let listed = game.listed.len.max(game.starting.len);
    let can_be_written = routines.max(listed) <= MOST_ROUTINES && counters <= MOST_COUNTERS;
    can_be_written.then(|| {
        let mut bytes = vec![0; stored::stored_length(game)];
        stored::write(game, &mut bytes);
        bytes
    })
}
