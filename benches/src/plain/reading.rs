//! A reader of the same rules in plain Rust, written apart from the library.

use super::{half, Check, ENTRY, HEADER};
use crate::game::{LIMIT, MOST_COUNTERS, MOST_ROUTINES, MOST_SIGNALS, MOST_STEPS};
use crate::steps::{DEEPEST, ELSE, END, IF, OPS, RELATIONS, REST, REST_FOR, STEP, WHILE};
use crate::verdict::Verdict;

const MOST_READ: i32 = 64;

fn refuse(number: u32, place: usize) -> Check {
    Err(Verdict {
        number,
        place: place as u32,
    })
}

/// What the fields of a step may be: a and b below these numbers, n between these ends.
#[derive(Clone, Copy)]
struct Fields {
    a: u16,
    b: u16,
    low: i32,
    high: i32,
}

/// The table of ops for a book with so many routines, signals and counters.
fn table(routines: usize, signals: usize, counters: usize) -> [Fields; OPS] {
    let [r, e, c] = [routines as u16, signals as u16, counters as u16];
    let none = |a, b| Fields {
        a,
        b,
        low: 0,
        high: 0,
    };
    let any = |a, b| Fields {
        a,
        b,
        low: -LIMIT,
        high: LIMIT,
    };
    [
        any(1, 1),  // mark
        any(c, 1),  // set
        any(c, 1),  // add
        none(c, c), // take
        none(e, 1), // signal
        none(e, c), // signal with number
        none(1, 1), // rest
        any(1, 1),  // rest n
        none(e, 1), // wait
        any(e, 1),  // wait n
        none(r, 1), // join
        any(r, 1),  // join n
        Fields {
            a: e,
            b: c,
            low: 1,
            high: MOST_READ,
        }, // read
        none(r, 1), // start
        none(r, 1), // stop
        none(r, 1), // suspend
        none(r, 1), // resume
        any(c, RELATIONS), // if
        none(1, 1), // else
        any(c, RELATIONS), // while
        none(1, 1), // end
    ]
}

fn step_n(step: &[u8]) -> i32 {
    i32::from_le_bytes([step[4], step[5], step[6], step[7]])
}

fn step_fits(table: &[Fields; OPS], step: &[u8]) -> bool {
    let Some(fields) = table.get(step[0] as usize) else {
        return false;
    };
    let b = u16::from_le_bytes([step[2], step[3]]);
    u16::from(step[1]) < fields.a
        && b < fields.b
        && (fields.low..=fields.high).contains(&step_n(step))
}

#[derive(Clone, Copy, PartialEq)]
enum Form {
    If,
    Else,
    While,
}

/// A step that is open: whether its present block pauses, and whether an if's first block did.
#[derive(Clone, Copy)]
struct Open {
    form: Form,
    place: usize,
    pauses: bool,
    first_pauses: bool,
}

/// The open steps of a routine, and the lowest while so far whose body does not pause.
struct Blocks {
    open: [Open; DEEPEST],
    depth: usize,
    endless: Option<usize>,
}

impl Blocks {
    fn new() -> Self {
        let none = Open {
            form: Form::If,
            place: 0,
            pauses: false,
            first_pauses: false,
        };
        Blocks {
            open: [none; DEEPEST],
            depth: 0,
            endless: None,
        }
    }

    fn innermost(&mut self) -> Option<&mut Open> {
        self.open[..self.depth].last_mut()
    }

    fn pause(&mut self) {
        if let Some(open) = self.innermost() {
            open.pauses = true;
        }
    }

    fn push(&mut self, form: Form, place: usize) -> bool {
        let Some(open) = self.open.get_mut(self.depth) else {
            return false;
        };
        *open = Open {
            form,
            place,
            pauses: false,
            first_pauses: false,
        };
        self.depth += 1;
        true
    }

    fn turn(&mut self) -> bool {
        match self.innermost() {
            Some(open) if open.form == Form::If => {
                open.form = Form::Else;
                open.first_pauses = open.pauses;
                open.pauses = false;
                true
            }
            _ => false,
        }
    }

    fn pop(&mut self) -> bool {
        let Some(&mut open) = self.innermost() else {
            return false;
        };
        self.depth -= 1;
        match open.form {
            Form::If => {}
            Form::Else => {
                if open.first_pauses && open.pauses {
                    self.pause();
                }
            }
            Form::While => {
                if !open.pauses && self.endless.is_none_or(|lowest| open.place < lowest) {
                    self.endless = Some(open.place);
                }
            }
        }
        true
    }

    /// Takes one step; false where it breaks the nesting.
    fn take(&mut self, step: &[u8], place: usize) -> bool {
        match step[0] {
            REST => self.pause(),
            REST_FOR if step_n(step) >= 1 => self.pause(),
            IF => return self.push(Form::If, place),
            ELSE => return self.turn(),
            WHILE => return self.push(Form::While, place),
            END => return self.pop(),
            _ => {}
        }
        true
    }
}

/// Refusals 1 to 3.
fn check_layout(book: &[u8]) -> Check {
    if book.len() < HEADER {
        return refuse(1, 0);
    }
    let (routines, steps) = (half(book, 0), half(book, 2));
    let fits = (1..=MOST_ROUTINES).contains(&routines)
        && steps <= MOST_STEPS
        && half(book, 4) <= MOST_SIGNALS
        && half(book, 6) <= MOST_COUNTERS;
    if !fits {
        return refuse(2, 0);
    }
    let from = HEADER + ENTRY * routines;
    if half(book, 8) != HEADER || half(book, 10) != from || book.len() != from + STEP * steps {
        return refuse(3, 0);
    }
    Ok(())
}

/// Refusal 4.
fn check_directory(directory: &[u8], steps: usize) -> Check {
    let mut sum = 0;
    for (routine, entry) in directory.chunks_exact(ENTRY).enumerate() {
        if half(entry, 0) != sum {
            return refuse(4, routine);
        }
        sum += half(entry, 2);
    }
    if sum != steps {
        return refuse(4, directory.len() / ENTRY);
    }
    Ok(())
}

/// A fault of nesting at `place`, unless a step from `from` on is wrong in itself.
fn nesting_fault(table: &[Fields; OPS], steps: &[u8], from: usize, place: usize) -> Check {
    let rest = steps[from * STEP..].chunks_exact(STEP);
    match rest.enumerate().find(|(_, step)| !step_fits(table, step)) {
        Some((wrong, _)) => refuse(5, from + wrong),
        None => refuse(6, place),
    }
}

/// Refusals 5 to 7, in one pass over the steps.
fn check_steps(directory: &[u8], steps: &[u8], table: &[Fields; OPS]) -> Check {
    let mut blocks = Blocks::new();
    for entry in directory.chunks_exact(ENTRY) {
        let (first, count) = (half(entry, 0), half(entry, 2));
        let routine = &steps[first * STEP..(first + count) * STEP];
        for (at, step) in routine.chunks_exact(STEP).enumerate() {
            let place = first + at;
            if !step_fits(table, step) {
                return refuse(5, place);
            }
            if !blocks.take(step, place) {
                return nesting_fault(table, steps, place + 1, place);
            }
        }
        if let Some(&mut open) = blocks.innermost() {
            return nesting_fault(table, steps, first + count, open.place);
        }
    }
    match blocks.endless {
        Some(place) => refuse(7, place),
        None => Ok(()),
    }
}

/// Refusals 1 to 7.
pub fn check(book: &[u8]) -> Check {
    check_layout(book)?;
    let (routines, steps) = (half(book, 0), half(book, 2));
    let (directory, rest) = book[HEADER..].split_at(ENTRY * routines);
    check_directory(directory, steps)?;
    check_steps(
        directory,
        rest,
        &table(routines, half(book, 4), half(book, 6)),
    )
}
