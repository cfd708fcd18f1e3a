//! A round of an accepted book, on a game that fits it: the game is changed where it is kept, steps are taken apart as they are played,
//! and the step behind a block is looked for each time.

use super::routine_steps;
use crate::game::{Game, Line, Routine, LIMIT, MOST_ROUTINES, MOST_SIGNALS};
use crate::game::{CONTINUING, ENDED, RESTED, STOPPED};
use crate::steps::*;

/// Where a routine is: its place, and the count left of a timed step that has begun.
#[derive(Clone, Copy)]
struct Position {
    place: usize,
    left: Option<u32>,
}

impl Position {
    fn of(routine: &Routine) -> Position {
        Position {
            place: routine.place.into(),
            left: routine.begun.then_some(routine.left),
        }
    }

    fn at(place: usize) -> Position {
        Position { place, left: None }
    }

    /// The count that a timed step waits: the one left, or n where it has not begun.
    fn count(self, n: i32) -> u32 {
        self.left.unwrap_or(n.max(0) as u32)
    }

    /// Here, once a timed step with this count has paused.
    fn counted(self, count: u32) -> Position {
        Position {
            left: Some(count - 1),
            ..self
        }
    }
}

/// How a turn ends.
enum Ending {
    Ended,
    Rested,
    Continued,
}

/// What a step does to its routine.
enum Act {
    Goes(usize),
    Halts(Ending, Position),
}

/// A round being played. Numbers are kept in the order given, each behind its signal. A step gives at most one in a round and a book has
/// at most 1,024 steps, so refusal 11 is never told.
struct Round<'a> {
    book: &'a [u8],
    game: &'a mut Game,
    present: [bool; MOST_SIGNALS],
    end_signals: [bool; MOST_ROUTINES],
    numbers: Vec<(usize, i32)>,
    marks: &'a mut [[i32; 2]],
    marks_made: usize,
    lost: usize,
    moved: bool,
    eoi: bool,
}

/// What a round came to: the passes it took, the marks it made, and how much its additions cut off.
#[derive(Default)]
pub struct Totals {
    pub passes: usize,
    pub marks: usize,
    pub lost: usize,
}

/// The place behind the marker that ends the block of the if, else or while at `place`.
fn past_partner(steps: &[Step], place: usize) -> usize {
    let mut depth = 0;
    for (at, step) in steps.iter().enumerate().skip(place + 1) {
        match step[0] {
            IF | WHILE => depth += 1,
            ELSE | END if depth == 0 => return at + 1,
            END => depth -= 1,
            _ => {}
        }
    }
    steps.len()
}

/// Where the end at `place` leads: to its while, or past an if.
fn past_end(steps: &[Step], place: usize) -> usize {
    let mut depth = 0;
    for (at, step) in steps[..place].iter().enumerate().rev() {
        match step[0] {
            END => depth += 1,
            IF | WHILE if depth > 0 => depth -= 1,
            IF => break,
            WHILE => return at,
            _ => {}
        }
    }
    place + 1
}

fn holds(value: i32, relation: usize, n: i32) -> bool {
    match relation as u16 {
        EQUAL => value == n,
        LESS => value < n,
        _ => value > n,
    }
}

impl<'a> Round<'a> {
    /// The eight actions of section 5.4.
    fn begin(book: &'a [u8], game: &'a mut Game, marks: &'a mut [i32]) -> Round<'a> {
        let starting = std::mem::replace(&mut game.starting, Line::EMPTY);
        for &routine in starting.entries() {
            game.routines[usize::from(routine)].stage = CONTINUING;
            game.listed.push(routine);
        }
        let present = std::mem::replace(&mut game.broadcast, [false; MOST_SIGNALS]);
        let end_signals = game.routines.each_ref().map(|routine| routine.stopping);
        let listed = std::mem::replace(&mut game.listed, Line::EMPTY);
        for &number in listed.entries() {
            let routine = &mut game.routines[usize::from(number)];
            match routine.stage {
                ENDED => {}
                _ if routine.stopping => routine.stage = STOPPED,
                _ => {
                    routine.stage = CONTINUING;
                    game.listed.push(number);
                }
            }
        }
        for routine in &mut game.routines[..game.counts.routines] {
            routine.suspended = routine.suspending || routine.suspended && !routine.resuming;
            routine.stopping = false;
            routine.suspending = false;
            routine.resuming = false;
        }
        Round {
            book,
            game,
            present,
            end_signals,
            numbers: Vec::new(),
            marks: marks.as_chunks_mut().0,
            marks_made: 0,
            lost: 0,
            moved: false,
            eoi: false,
        }
    }

    fn mark(&mut self, routine: usize, n: i32) {
        self.marks[self.marks_made] = [routine as i32, n];
        self.marks_made += 1;
    }

    /// Adds to a counter, which stays between its ends, and counts how far the true sum lies beyond them.
    fn add(&mut self, counter: usize, n: i32) {
        let sum = self.game.counters[counter] + n;
        let kept = sum.clamp(-LIMIT, LIMIT);
        self.game.counters[counter] = kept;
        self.lost += sum.abs_diff(kept) as usize;
    }

    fn signal(&mut self, signal: usize) {
        self.present[signal] = true;
        self.moved = true;
    }

    /// The k-th number of a signal.
    fn number(&self, signal: usize, k: i32) -> Option<i32> {
        let mut numbers = self.numbers.iter().filter(|(given, _)| *given == signal);
        numbers.nth(k as usize - 1).map(|&(_, value)| value)
    }

    /// Whether a routine has ended or was stopped, or its end signal is present.
    fn end_there(&self, routine: usize) -> bool {
        matches!(self.game.routines[routine].stage, ENDED | STOPPED) || self.end_signals[routine]
    }

    /// A step that asks for something: where that is missing the routine is to be continued, and rests once the round is being closed.
    fn asks(&self, is_there: bool, here: Position, rests: Position) -> Act {
        if is_there {
            Act::Goes(here.place + 1)
        } else if self.eoi {
            Act::Halts(Ending::Rested, rests)
        } else {
            Act::Halts(Ending::Continued, here)
        }
    }

    /// As `asks`, for a timed step with this count.
    fn asks_for(&self, is_there: bool, here: Position, count: u32) -> Act {
        if count == 0 {
            Act::Goes(here.place + 1)
        } else {
            self.asks(is_there, here, here.counted(count))
        }
    }

    fn play_step(&mut self, routine: usize, steps: &[Step], step: &Step, here: Position) -> Act {
        let place = here.place;
        let (a, b, n) = fields(step);
        match step[0] {
            MARK => self.mark(routine, n),
            SET => self.game.counters[a] = n,
            ADD => self.add(a, n),
            TAKE => self.add(a, self.game.counters[b]),
            SIGNAL => self.signal(a),
            SIGNAL_NUMBER => {
                self.signal(a);
                self.numbers.push((a, self.game.counters[b]));
            }
            REST => return Act::Halts(Ending::Rested, Position::at(place + 1)),
            REST_FOR => match here.count(n) {
                0 => {}
                count => return Act::Halts(Ending::Rested, here.counted(count)),
            },
            WAIT => return self.asks(self.present[a], here, here),
            WAIT_FOR => return self.asks_for(self.present[a], here, here.count(n)),
            JOIN => return self.asks(self.end_there(a), here, here),
            JOIN_FOR => return self.asks_for(self.end_there(a), here, here.count(n)),
            READ => match self.number(a, n) {
                Some(value) => self.game.counters[b] = value,
                None => return self.asks(false, here, Position::at(place + 1)),
            },
            START => self.game.start(a),
            STOP => self.game.routines[a].stopping = true,
            SUSPEND => self.game.routines[a].suspending = true,
            RESUME => self.game.routines[a].resuming = true,
            IF | WHILE if holds(self.game.counters[a], b, n) => {}
            IF | WHILE | ELSE => return Act::Goes(past_partner(steps, place)),
            _ => return Act::Goes(past_end(steps, place)),
        }
        Act::Goes(place + 1)
    }

    /// The steps that a routine takes in a turn: how they end, and where.
    fn play_steps(&mut self, routine: usize) -> (Ending, Position) {
        let steps = routine_steps(self.book, routine);
        let mut here = Position::of(&self.game.routines[routine]);
        while let Some(step) = steps.get(here.place) {
            match self.play_step(routine, steps, step, here) {
                Act::Goes(place) => here = Position::at(place),
                Act::Halts(ending, position) => return (ending, position),
            }
        }
        (Ending::Ended, Position::at(steps.len()))
    }

    /// The turn of a listed routine; true if it is to be continued.
    fn turn(&mut self, number: usize) -> bool {
        let routine = &self.game.routines[number];
        if routine.suspended || routine.stage != CONTINUING {
            return false;
        }
        let (ending, position) = self.play_steps(number);
        let routine = &mut self.game.routines[number];
        routine.place = position.place as u16;
        routine.begun = position.left.is_some();
        routine.left = position.left.unwrap_or(0);
        match ending {
            Ending::Ended => {
                routine.stage = ENDED;
                self.end_signals[number] = true;
                self.moved = true;
            }
            Ending::Rested => routine.stage = RESTED,
            Ending::Continued => return true,
        }
        false
    }

    /// Plays pass after pass, until no routine is to be continued, and counts them.
    fn passes(&mut self) -> usize {
        let listed = self.game.listed;
        let mut passes = 0;
        loop {
            passes += 1;
            let mut continued = false;
            for &routine in listed.entries() {
                continued |= self.turn(routine.into());
            }
            if !continued {
                return passes;
            }
            self.eoi = !self.moved;
            self.moved = false;
        }
    }
}

/// Plays a round on a game that fits an accepted book, with room for its marks.
#[inline(always)]
pub fn play_round(book: &[u8], game: &mut Game, marks: &mut [i32]) -> Totals {
    let mut round = Round::begin(book, game, marks);
    Totals {
        passes: round.passes(),
        marks: round.marks_made,
        lost: round.lost,
    }
}
