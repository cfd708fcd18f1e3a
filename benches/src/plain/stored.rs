//! A game as bytes: what it is stored as, and the game that stored bytes stand for.

use super::half;
use crate::game::{Counts, Game, Line, Routine};
use crate::game::{MOST_COUNTERS, MOST_ROUTINES, MOST_SIGNALS, STOPPED};

const FORM: usize = 1;
const HEADER: usize = 14;
const RECORD: usize = 8;
const COUNTER: usize = 4;
const COUNT: usize = 2;
const SET: usize = 8;

/// A record's flags have five bits.
const FLAG_LIMIT: u8 = 32;

/// Where the counters and the lists of a stored game with these counts begin.
fn offsets(counts: Counts) -> (usize, usize) {
    let counters = HEADER + RECORD * counts.routines;
    (counters, counters + COUNTER * counts.counters)
}

/// How many bytes a game that fits its book is stored as.
pub fn stored_length(game: &Game) -> usize {
    let (_, lists) = offsets(game.counts);
    lists + COUNT + game.listed.len + COUNT + game.starting.len + SET
}

/// The seven numbers of a header.
fn header_of(counts: Counts) -> [usize; 7] {
    let (counters, lists) = offsets(counts);
    [
        FORM,
        counts.routines,
        counts.signals,
        counts.counters,
        HEADER,
        counters,
        lists,
    ]
}

fn record_of(routine: &Routine) -> [u8; RECORD] {
    let flags = u8::from(routine.suspended)
        | u8::from(routine.begun) << 1
        | u8::from(routine.stopping) << 2
        | u8::from(routine.suspending) << 3
        | u8::from(routine.resuming) << 4;
    let [place_low, place_high] = routine.place.to_le_bytes();
    let [a, b, c, d] = routine.left.to_le_bytes();
    [routine.stage, flags, place_low, place_high, a, b, c, d]
}

/// Writes a list to the front of a buffer, and gives the buffer behind it.
fn write_line<'a>(line: &Line, out: &'a mut [u8]) -> &'a mut [u8] {
    let (count, rest) = out.split_at_mut(COUNT);
    count.copy_from_slice(&(line.len as u16).to_le_bytes());
    let (entries, rest) = rest.split_at_mut(line.len);
    entries.copy_from_slice(line.entries());
    rest
}

/// Writes a game that fits its book to the front of a buffer that is long enough. As with `fits`, it is compiled into its callers.
#[inline(always)]
pub fn write(game: &Game, out: &mut [u8]) {
    let counts = game.counts;
    let (header, rest) = out.split_at_mut(HEADER);
    for (bytes, number) in header.chunks_exact_mut(2).zip(header_of(counts)) {
        bytes.copy_from_slice(&(number as u16).to_le_bytes());
    }
    let (records, rest) = rest.split_at_mut(RECORD * counts.routines);
    for (record, routine) in records.as_chunks_mut().0.iter_mut().zip(&game.routines) {
        *record = record_of(routine);
    }
    let (counters, rest) = rest.split_at_mut(COUNTER * counts.counters);
    for (bytes, counter) in counters.as_chunks_mut().0.iter_mut().zip(&game.counters) {
        *bytes = counter.to_le_bytes();
    }
    let rest = write_line(&game.listed, rest);
    let rest = write_line(&game.starting, rest);
    let bits = game.broadcast.iter().rev();
    let set = bits.fold(0u64, |set, &flag| set << 1 | u64::from(flag));
    rest[..SET].copy_from_slice(&set.to_le_bytes());
}

/// The routine of a record, unless its stage or a flag is none that there is.
fn routine_in(record: &[u8; RECORD]) -> Option<Routine> {
    let &[stage, flags, place_low, place_high, a, b, c, d] = record;
    let flag = |bit: u8| flags >> bit & 1 == 1;
    (stage <= STOPPED && flags < FLAG_LIMIT).then(|| Routine {
        stage,
        place: u16::from_le_bytes([place_low, place_high]),
        left: u32::from_le_bytes([a, b, c, d]),
        suspended: flag(0),
        begun: flag(1),
        stopping: flag(2),
        suspending: flag(3),
        resuming: flag(4),
    })
}

/// The list at the front of these bytes, and the bytes behind it.
fn line_in(bytes: &[u8]) -> Option<(Line, &[u8])> {
    let (count, rest) = bytes.split_at_checked(COUNT)?;
    let len = half(count, 0);
    let mut line = Line { len, ..Line::EMPTY };
    let (entries, rest) = rest.split_at_checked(len)?;
    line.items.get_mut(..len)?.copy_from_slice(entries);
    Some((line, rest))
}

/// The counts of a header, unless it is a wrong one.
fn counts_in(header: &[u8]) -> Option<Counts> {
    let counts = Counts {
        routines: half(header, 2),
        signals: half(header, 4),
        counters: half(header, 6),
    };
    let is_within = (1..=MOST_ROUTINES).contains(&counts.routines)
        && counts.signals <= MOST_SIGNALS
        && counts.counters <= MOST_COUNTERS;
    let numbers = header.chunks_exact(2).map(|bytes| half(bytes, 0));
    (is_within && numbers.eq(header_of(counts))).then_some(counts)
}

/// The game that bytes stand for, whether it fits a book or not; none where they have not the form. As with `fits`, it is compiled into its
/// callers.
#[inline(always)]
pub fn read(bytes: &[u8]) -> Option<Game> {
    let (header, rest) = bytes.split_at_checked(HEADER)?;
    let counts = counts_in(header)?;
    let (records, rest) = rest.split_at_checked(RECORD * counts.routines)?;
    let (counters, rest) = rest.split_at_checked(COUNTER * counts.counters)?;
    let (listed, rest) = line_in(rest)?;
    let (starting, rest) = line_in(rest)?;
    let set = u64::from_le_bytes(rest.try_into().ok()?);
    if set.checked_shr(counts.signals as u32).unwrap_or(0) != 0 {
        return None;
    }
    let mut game = Game {
        counts,
        routines: [Routine::default(); MOST_ROUTINES],
        counters: [0; MOST_COUNTERS],
        listed,
        starting,
        broadcast: std::array::from_fn(|signal| set >> signal & 1 == 1),
    };
    for (routine, record) in game.routines.iter_mut().zip(records.as_chunks().0) {
        *routine = routine_in(record)?;
    }
    for (counter, bytes) in game.counters.iter_mut().zip(counters.as_chunks().0) {
        *counter = i32::from_le_bytes(*bytes);
    }
    Some(game)
}
