//! The books on which every call is timed. But for T3's and one empty routine, their routines loop for ever and rest once a round or more
//! often.

use crate::books::{book, t3};
use crate::game::LIMIT;
use crate::steps::*;

/// A book, and how many rounds of its play from set-up on are timed.
pub struct TimedBook {
    pub name: &'static str,
    pub book: Vec<u8>,
    pub rounds: usize,
}

pub fn timed_books() -> Vec<TimedBook> {
    let looping = |name, book| TimedBook {
        name,
        book,
        rounds: 40,
    };
    vec![
        TimedBook {
            name: "T3",
            book: t3(),
            rounds: 2,
        },
        looping("8 routines of 20 steps", eight()),
        looping("60 of 64 routines waiting", waiting()),
        looping("counters, ifs and whiles", counting()),
        looping("1,024 steps of all kinds", largest()),
    ]
}

/// The steps that start the routines from 1 to before `end`.
pub fn starts(end: u8) -> Vec<Step> {
    (1..end).map(|routine| step(START, routine, 0, 0)).collect()
}

/// A while that goes on for ever: nothing brings a counter that stays below the limit to it.
fn for_ever(counter: u8) -> Step {
    step(WHILE, counter, LESS, LIMIT)
}

/// 8 routines of 20 steps: each waits for the signal that the one before it gives.
fn eight() -> Vec<u8> {
    let mut first = starts(8);
    first.extend([
        for_ever(0),
        step(ADD, 0, 0, 1),
        step(SIGNAL, 0, 0, 0),
        step(WAIT_FOR, 7, 0, 1),
        step(IF, 0, GREATER, 3),
        step(MARK, 0, 0, 1),
        bare(ELSE),
        step(MARK, 0, 0, 2),
        bare(END),
        step(JOIN_FOR, 1, 0, 1),
        step(SIGNAL_NUMBER, 1, 0, 0),
        bare(REST),
        bare(END),
    ]);
    let mut routines = vec![first];
    routines.extend((1..8).map(one_of_eight));
    book(&routines, 8, 8)
}

fn one_of_eight(r: u8) -> Vec<Step> {
    vec![
        step(SET, r, 0, 0),
        for_ever(r),
        step(WAIT, r - 1, 0, 0),
        step(ADD, r, 0, 3),
        step(TAKE, r, 0, 0),
        step(IF, r, LESS, 50),
        step(MARK, 0, 0, 10 + i32::from(r)),
        step(IF, r, GREATER, 20),
        step(ADD, r, 0, 1),
        bare(ELSE),
        step(ADD, r, 0, 2),
        bare(END),
        bare(ELSE),
        step(SET, r, 0, 0),
        step(WAIT_FOR, (r + 3) % 8, 0, 2),
        bare(END),
        step(SIGNAL, r, 0, 0),
        step(JOIN_FOR, (r + 1) % 8, 0, 1),
        bare(REST),
        bare(END),
    ]
}

/// 64 routines: 60 wait for one signal, which the last gives.
fn waiting() -> Vec<u8> {
    let looping = |steps: &[Step]| [&[for_ever(0)], steps, &[bare(REST), bare(END)]].concat();
    let mut first = starts(64);
    first.extend(looping(&[step(ADD, 0, 0, 1)]));
    let mut routines = vec![first];
    routines.extend((0..60).map(|_| looping(&[step(WAIT, 0, 0, 0)])));
    routines.extend([looping(&[]), looping(&[])]);
    routines.push(looping(&[step(SIGNAL, 0, 0, 0)]));
    book(&routines, 1, 1)
}

/// 4 routines of counters, ifs and whiles.
fn counting() -> Vec<u8> {
    let mut routines: Vec<Vec<Step>> = (0..4).map(counting_routine).collect();
    routines[0].splice(0..0, starts(4));
    book(&routines, 1, 48)
}

fn counting_routine(r: u8) -> Vec<Step> {
    let mut steps = vec![for_ever(0), step(ADD, 0, 0, 1)];
    for c in 8 * (r + 1)..8 * (r + 1) + 6 {
        steps.extend([
            step(ADD, c, 0, 7),
            step(IF, c, LESS, 100),
            step(IF, c, GREATER, 30),
            step(TAKE, c, u16::from(c) - 1, 0),
            step(IF, c, EQUAL, 42),
            step(SET, c, 0, 1),
            bare(ELSE),
            step(ADD, c, 0, 2),
            bare(END),
            bare(ELSE),
            step(ADD, c, 0, 5),
            step(IF, 1, GREATER, 1000),
            step(WHILE, 2, LESS, 3),
            step(ADD, 2, 0, 1),
            bare(REST),
            bare(END),
            bare(END),
            bare(END),
            bare(ELSE),
            step(SET, c, 0, -20),
            step(TAKE, c, 0, 0),
            bare(END),
            step(ADD, 3 + r, 0, 1),
        ]);
    }
    steps.extend([bare(REST), bare(END)]);
    steps
}

/// The routine of the largest book that has no steps: it ends in round 2, and the others may join, stop and suspend it.
const EMPTY: u8 = 16;

/// A largest book: 16 routines of 64 steps, of all kinds, most of them played in every second round, and an empty one.
fn largest() -> Vec<u8> {
    let mut routines: Vec<Vec<Step>> = (0..EMPTY).map(routine_of_64).collect();
    routines.push(Vec::new());
    book(&routines, 64, 64)
}

fn routine_of_64(r: u8) -> Vec<Step> {
    let mut steps = if r == 0 { starts(17) } else { Vec::new() };
    steps.push(for_ever(0));
    for i in 0..(51 - steps.len()) / 11 {
        steps.extend(eleven_steps(r, i as u8));
    }
    steps.resize(51, step(MARK, 0, 0, 50 + i32::from(r)));
    steps.extend([
        step(SIGNAL, 4 * r, 0, 0),
        step(WAIT, 4 * ((r + 1) % 16), 0, 0),
        step(WAIT_FOR, 4 * ((r + 5) % 16), 0, 2),
        step(JOIN_FOR, (r + 3) % 16, 0, 1),
        step(JOIN, EMPTY, 0, 0),
        step(STOP, EMPTY, 0, 0),
        step(SUSPEND, EMPTY, 0, 0),
        step(REST_FOR, 0, 0, 0),
        step(START, (r + 1) % 16, 0, 0),
        step(RESUME, r, 0, 0),
        step(ADD, 0, 0, 0),
        bare(REST),
        bare(END),
    ]);
    steps
}

fn eleven_steps(r: u8, i: u8) -> [Step; 11] {
    let (signal, counter) = (4 * r + i, 1 + 3 * r + i % 3);
    [
        step(ADD, counter, 0, 3),
        step(IF, counter, u16::from(i % 3), 40),
        step(MARK, 0, 0, i.into()),
        bare(ELSE),
        step(TAKE, counter, 0, 0),
        step(IF, counter, GREATER, 200),
        step(SET, counter, 0, -5),
        bare(END),
        bare(END),
        step(SIGNAL_NUMBER, signal, counter.into(), 0),
        step(READ, signal, 60, 1),
    ]
}
