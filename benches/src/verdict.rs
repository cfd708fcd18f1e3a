//! What reading a book answers, and any other call first of all.

use std::fmt;

/// The number of the first refusal that applies, and its place; both 0 where nothing is turned down.
#[repr(C)]
#[derive(Clone, Copy, PartialEq, Eq, Debug)]
pub struct Verdict {
    pub number: u32,
    pub place: u32,
}

impl Verdict {
    pub const ACCEPTED: Verdict = Verdict {
        number: 0,
        place: 0,
    };

    pub fn is_accepted(self) -> bool {
        self == Verdict::ACCEPTED
    }
}

impl fmt::Display for Verdict {
    fn fmt(&self, f: &mut fmt::Formatter) -> fmt::Result {
        write!(f, "{} {}", self.number, self.place)
    }
}

/// What naming the routines that nobody starts answers.
#[repr(C)]
#[derive(Clone, Copy, PartialEq, Eq, Debug)]
pub struct UnstartedNames {
    pub verdict: Verdict,
    pub count: usize,
}

/// A part of a book: `length` bytes from byte `offset` on.
#[repr(C)]
#[derive(Clone, Copy, PartialEq, Eq, Debug, Default)]
pub struct Part {
    pub offset: usize,
    pub length: usize,
}
