//! Games and what the calls on them answer, laid out as the library lays them out: as in C.

use crate::verdict::Verdict;

pub const MOST_ROUTINES: usize = 64;
pub const MOST_STEPS: usize = 1024;
pub const MOST_SIGNALS: usize = 64;
pub const MOST_COUNTERS: usize = 64;

/// The bytes of the longest stored game.
pub const MOST_STORED: usize = 858;

/// The ends of a counter and of a step's n are this number and its negative.
pub const LIMIT: i32 = 1_000_000;

/// The stages of a routine.
pub const NOT_STARTED: u8 = 0;
pub const CONTINUING: u8 = 1;
pub const RESTED: u8 = 2;
pub const ENDED: u8 = 3;
pub const STOPPED: u8 = 4;

/// A routine: its stage, its place, the count left, and the sets that it is in.
#[repr(C)]
#[derive(Clone, Copy, PartialEq, Eq, Debug, Default)]
pub struct Routine {
    pub stage: u8,
    pub place: u16,
    pub left: u32,
    pub suspended: bool,
    pub begun: bool,
    pub stopping: bool,
    pub suspending: bool,
    pub resuming: bool,
}

/// A list of routines: its first `len` entries.
#[repr(C)]
#[derive(Clone, Copy, PartialEq, Eq, Debug)]
pub struct Line {
    pub items: [u8; MOST_ROUTINES],
    pub len: usize,
}

impl Line {
    pub const EMPTY: Line = Line {
        items: [0; MOST_ROUTINES],
        len: 0,
    };

    /// The entries of a list that fits.
    pub fn entries(&self) -> &[u8] {
        &self.items[..self.len]
    }

    /// Puts a routine at the end of a list that has room.
    pub fn push(&mut self, routine: u8) {
        self.items[self.len] = routine;
        self.len += 1;
    }
}

/// The numbers R, E and C of a book.
#[repr(C)]
#[derive(Clone, Copy, PartialEq, Eq, Debug)]
pub struct Counts {
    pub routines: usize,
    pub signals: usize,
    pub counters: usize,
}

/// What is kept between rounds.
#[repr(C)]
#[derive(Clone, Copy, PartialEq, Eq, Debug)]
pub struct Game {
    pub counts: Counts,
    pub routines: [Routine; MOST_ROUTINES],
    pub counters: [i32; MOST_COUNTERS],
    pub listed: Line,
    pub starting: Line,
    pub broadcast: [bool; MOST_SIGNALS],
}

impl Game {
    /// The game set up for an accepted book with these counts.
    pub fn set_up(counts: Counts) -> Game {
        let mut starting = Line::EMPTY;
        starting.push(0);
        Game {
            counts,
            routines: [Routine::default(); MOST_ROUTINES],
            counters: [0; MOST_COUNTERS],
            listed: Line::EMPTY,
            starting,
            broadcast: [false; MOST_SIGNALS],
        }
    }

    /// A routine is to start in the next round, unless it has started or already is to.
    pub fn start(&mut self, routine: usize) {
        let number = routine as u8;
        if self.routines[routine].stage == NOT_STARTED && !self.starting.entries().contains(&number)
        {
            self.starting.push(number);
        }
    }
}

/// What set-up, an order and reading a stored game answer: after a refusal the game is the lent one.
#[repr(C)]
#[derive(Clone, Copy, PartialEq, Eq, Debug)]
pub struct Outcome {
    pub verdict: Verdict,
    pub game: Game,
}

/// What storing a game answers, and set-up and an order on a game that is kept as stored bytes: the length is 0 after a refusal.
#[repr(C)]
#[derive(Clone, Copy, PartialEq, Eq, Debug)]
pub struct Stored {
    pub verdict: Verdict,
    pub length: usize,
}

/// What playing a round answers, with how much its additions cut off: after a refusal the game is the lent one, and passes, marks and what
/// was cut off are 0.
#[repr(C)]
#[derive(Clone, Copy, PartialEq, Eq, Debug)]
pub struct Played {
    pub verdict: Verdict,
    pub game: Game,
    pub passes: usize,
    pub marks: usize,
    pub lost: usize,
}

/// Set-up and an order answer as a round does that takes no passes, makes no marks and cuts off nothing.
impl From<Outcome> for Played {
    fn from(Outcome { verdict, game }: Outcome) -> Played {
        Played {
            verdict,
            game,
            passes: 0,
            marks: 0,
            lost: 0,
        }
    }
}

/// What playing a round of a game that is kept as stored bytes answers: the stored game's new length, and the rest as `Played` has it.
/// After a refusal they are 0.
#[repr(C)]
#[derive(Clone, Copy, PartialEq, Eq, Debug)]
pub struct Round {
    pub verdict: Verdict,
    pub length: usize,
    pub passes: usize,
    pub marks: usize,
    pub lost: usize,
}

/// Set-up and an order on a kept game answer as a round does that takes no passes, makes no marks and cuts off nothing.
impl From<Stored> for Round {
    fn from(Stored { verdict, length }: Stored) -> Round {
        Round {
            length,
            ..verdict.into()
        }
    }
}

/// A refusal; whether a game fits is answered so too.
impl From<Verdict> for Round {
    fn from(verdict: Verdict) -> Round {
        Round {
            verdict,
            length: 0,
            passes: 0,
            marks: 0,
            lost: 0,
        }
    }
}
