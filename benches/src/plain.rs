//! The library's calls in plain Rust, written apart from it.

mod fitting;
pub mod kept;
mod orders;
mod reading;
mod round;
mod starts;
mod stored;

use crate::game::{Counts, Game, Outcome, Played, Stored};
use crate::steps::{Step, MARK, STEP};
use crate::verdict::{Part, UnstartedNames, Verdict};
pub use fitting::timed_count;
use orders::obey;
pub use orders::{nameable, KINDS};
use round::{play_round, Totals};

const HEADER: usize = 12;
const ENTRY: usize = 4;

/// Nothing, or the refusal that is told.
type Check = Result<(), Verdict>;

fn half(bytes: &[u8], at: usize) -> usize {
    u16::from_le_bytes([bytes[at], bytes[at + 1]]).into()
}

/// The numbers of routines, signals and counters of a book that has a header.
pub fn counts(book: &[u8]) -> Counts {
    Counts {
        routines: half(book, 0),
        signals: half(book, 4),
        counters: half(book, 6),
    }
}

/// The steps of an accepted book.
fn steps(book: &[u8]) -> &[Step] {
    let (steps, _) = book[HEADER + ENTRY * half(book, 0)..].as_chunks();
    steps
}

/// The steps of a routine of an accepted book.
pub fn routine_steps(book: &[u8], routine: usize) -> &[Step] {
    let entry = HEADER + ENTRY * routine;
    let (first, count) = (half(book, entry), half(book, entry + 2));
    &steps(book)[first..first + count]
}

/// How many mark steps an accepted book has.
pub fn mark_steps(book: &[u8]) -> usize {
    steps(book).iter().filter(|step| step[0] == MARK).count()
}

/// Reads a book.
#[inline(never)]
pub fn read(book: &[u8]) -> Verdict {
    reading::check(book).err().unwrap_or(Verdict::ACCEPTED)
}

/// Names the routines that no chain of start steps leads to from routine 0; checks 1 to 7 and 12.
#[inline(never)]
pub fn unstarted(book: &[u8], names: &mut [u8]) -> UnstartedNames {
    let (verdict, count) = match check_names(book, names.len()) {
        Ok(()) => (Verdict::ACCEPTED, starts::name_unstarted(book, names)),
        Err(verdict) => (verdict, 0),
    };
    UnstartedNames { verdict, count }
}

fn check_names(book: &[u8], room: usize) -> Check {
    reading::check(book)?;
    if room < counts(book).routines {
        return refuse(12);
    }
    Ok(())
}

/// Where the steps of a routine stand in a book; the empty part at its start where the book is refused or has no such routine.
pub fn show(book: &[u8], routine: u32) -> Part {
    let routine = routine as usize;
    if reading::check(book).is_err() || routine >= counts(book).routines {
        return Part::default();
    }
    let steps = HEADER + ENTRY * counts(book).routines;
    let entry = HEADER + ENTRY * routine;
    Part {
        offset: steps + STEP * half(book, entry),
        length: STEP * half(book, entry + 2),
    }
}

/// Whether a game fits an accepted book.
#[inline(never)]
pub fn fits(book: &[u8], game: Game) -> bool {
    fitting::fits(book, &game)
}

/// Sets up a game.
#[inline(never)]
pub fn set_up(book: &[u8], game: Game) -> Outcome {
    match reading::check(book) {
        Ok(()) => Outcome {
            verdict: Verdict::ACCEPTED,
            game: Game::set_up(counts(book)),
        },
        Err(verdict) => Outcome { verdict, game },
    }
}

/// A refusal without a place.
fn refuse<T>(number: u32) -> Result<T, Verdict> {
    Err(Verdict { number, place: 0 })
}

/// The checks of an order, 1 to 7, 9 and 8.
fn check_order(book: &[u8], game: &Game, kind: u32, number: u32) -> Check {
    reading::check(book)?;
    if !fitting::fits(book, game) {
        return refuse(9);
    }
    if number as usize >= nameable(counts(book), kind) {
        return refuse(8);
    }
    Ok(())
}

/// Gives a game an order.
#[inline(never)]
pub fn order(book: &[u8], mut game: Game, kind: u32, number: u32) -> Outcome {
    let verdict = match check_order(book, &game, kind, number) {
        Ok(()) => {
            obey(&mut game, kind, number as usize);
            Verdict::ACCEPTED
        }
        Err(verdict) => verdict,
    };
    Outcome { verdict, game }
}

/// The checks of storing, 1 to 7, 9 and 14.
fn check_store(book: &[u8], game: &Game, room: usize) -> Check {
    reading::check(book)?;
    if !fitting::fits(book, game) {
        return refuse(9);
    }
    if room < stored::stored_length(game) {
        return refuse(14);
    }
    Ok(())
}

/// Stores a game.
#[inline(never)]
pub fn store(book: &[u8], game: Game, out: &mut [u8]) -> Stored {
    let (verdict, length) = match check_store(book, &game, out.len()) {
        Ok(()) => {
            stored::write(&game, out);
            (Verdict::ACCEPTED, stored::stored_length(&game))
        }
        Err(verdict) => (verdict, 0),
    };
    Stored { verdict, length }
}

/// The game that bytes stand for, after the checks of reading it, 1 to 7, 13 and 9. As with `fits`, it is compiled into its callers.
#[inline(always)]
fn check_load(book: &[u8], bytes: &[u8]) -> Result<Game, Verdict> {
    reading::check(book)?;
    let Some(game) = stored::read(bytes) else {
        return refuse(13);
    };
    if !fitting::fits(book, &game) {
        return refuse(9);
    }
    Ok(game)
}

/// Replaces a lent game by a stored one.
#[inline(never)]
pub fn load(book: &[u8], bytes: &[u8], game: Game) -> Outcome {
    match check_load(book, bytes) {
        Ok(game) => Outcome {
            verdict: Verdict::ACCEPTED,
            game,
        },
        Err(verdict) => Outcome { verdict, game },
    }
}

/// The checks of a round, 1 to 7, 9 and 10.
fn check_round(book: &[u8], game: &Game, room: usize) -> Check {
    reading::check(book)?;
    if !fitting::fits(book, game) {
        return refuse(9);
    }
    if room < 2 * mark_steps(book) {
        return refuse(10);
    }
    Ok(())
}

#[inline(always)]
fn played(verdict: Verdict, game: Game, totals: Totals) -> Played {
    Played {
        verdict,
        game,
        passes: totals.passes,
        marks: totals.marks,
        lost: totals.lost,
    }
}

/// Plays a round, after the checks.
#[inline(never)]
pub fn play(book: &[u8], mut game: Game, marks: &mut [i32]) -> Played {
    let (verdict, totals) = match check_round(book, &game, marks.len()) {
        Ok(()) => (Verdict::ACCEPTED, play_round(book, &mut game, marks)),
        Err(verdict) => (verdict, Totals::default()),
    };
    played(verdict, game, totals)
}

/// Plays a round without the checks: the book is accepted, the game fits it, and there is room for the marks.
#[inline(never)]
pub fn round(book: &[u8], mut game: Game, marks: &mut [i32]) -> Played {
    let totals = play_round(book, &mut game, marks);
    played(Verdict::ACCEPTED, game, totals)
}
