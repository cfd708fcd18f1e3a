//! Random books and damaged ones.

use crate::books::book;
use crate::game::{LIMIT, MOST_ROUTINES, MOST_STEPS};
use crate::random::Random;
use crate::steps::*;

struct Maker<'a> {
    random: &'a mut Random,
    routines: usize,
    signals: usize,
    counters: usize,
    steps: Vec<Step>,
}

impl Maker<'_> {
    fn n(&mut self) -> i32 {
        match self.random.below(8) {
            0..=4 => self.random.below(7) as i32 - 2,
            5 => -LIMIT,
            6 => LIMIT,
            _ => self.random.below(2 * LIMIT as usize + 1) as i32 - LIMIT,
        }
    }

    fn routine(&mut self) -> u8 {
        self.random.below(self.routines) as u8
    }

    fn signal(&mut self) -> u8 {
        self.random.below(self.signals) as u8
    }

    fn counter(&mut self) -> u8 {
        self.random.below(self.counters) as u8
    }

    /// A step that holds no block and whose fields fit the book; often one that lets its routine go on, which are those before rest.
    fn step(&mut self) -> Step {
        let ops = if self.random.chance(50) { REST } else { IF };
        let op = self.random.below(ops.into()) as u8;
        match op {
            SET | ADD | TAKE | SIGNAL_NUMBER | READ if self.counters == 0 => bare(REST),
            SIGNAL | SIGNAL_NUMBER | WAIT | WAIT_FOR | READ if self.signals == 0 => bare(REST),
            MARK | REST_FOR => step(op, 0, 0, self.n()),
            SET | ADD => step(op, self.counter(), 0, self.n()),
            TAKE => step(op, self.counter(), self.counter().into(), 0),
            SIGNAL | WAIT => step(op, self.signal(), 0, 0),
            SIGNAL_NUMBER => step(op, self.signal(), self.counter().into(), 0),
            WAIT_FOR => step(op, self.signal(), 0, self.n()),
            READ => {
                let most = if self.random.chance(50) { 2 } else { 64 };
                let k = 1 + self.random.below(most);
                step(op, self.signal(), self.counter().into(), k as i32)
            }
            JOIN_FOR => step(op, self.routine(), 0, self.n()),
            JOIN | START..=RESUME => step(op, self.routine(), 0, 0),
            _ => bare(op),
        }
    }

    /// An if or a while, as it opens.
    fn opening(&mut self, op: u8) -> Step {
        let relation = self.random.below(RELATIONS.into());
        step(op, self.counter(), relation as u16, self.n())
    }

    /// What makes a block pause: a rest, a rest n, or an if that rests in both blocks.
    fn pause(&mut self, depth: usize) {
        match self.random.below(5) {
            0 if depth < DEEPEST && self.counters > 0 => {
                let opening = self.opening(IF);
                let rest = bare(REST);
                self.steps
                    .extend([opening, rest, bare(ELSE), rest, bare(END)]);
            }
            1 => self
                .steps
                .push(step(REST_FOR, 0, 0, 1 + self.random.below(3) as i32)),
            _ => self.steps.push(bare(REST)),
        }
    }

    /// A block of a few steps; one that is to pause does so before or behind them.
    fn block(&mut self, depth: usize, pauses: bool) {
        let pauses_first = self.random.chance(50);
        if pauses && pauses_first {
            self.pause(depth);
        }
        for _ in 0..self.random.below(if depth < 2 { 7 } else { 4 }) {
            if self.counters > 0 && depth < DEEPEST && self.random.chance(40) {
                self.holder(depth);
            } else {
                let step = self.step();
                self.steps.push(step);
            }
        }
        if pauses && !pauses_first {
            self.pause(depth);
        }
    }

    /// An if or a while with its blocks.
    fn holder(&mut self, depth: usize) {
        let is_while = self.random.chance(50);
        let opening = self.opening(if is_while { WHILE } else { IF });
        self.steps.push(opening);
        let pauses = is_while && !self.random.chance(5);
        self.block(depth + 1, pauses);
        if !is_while && self.random.chance(60) {
            self.steps.push(bare(ELSE));
            self.block(depth + 1, false);
        }
        self.steps.push(bare(END));
    }

    /// A routine: a block, or one that is played again and again while a counter lies below its highest value.
    fn routine_steps(&mut self) {
        if self.counters == 0 || self.random.chance(30) {
            return self.block(0, false);
        }
        let opening = step(WHILE, self.counter(), LESS, LIMIT);
        self.steps.push(opening);
        self.block(1, true);
        self.steps.push(bare(END));
    }

    /// The first routine starts others, all of them or some, before it does anything else.
    fn starts(&mut self) {
        let percent = [0, 50, 100, 100][self.random.below(4)];
        for routine in 1..self.routines {
            if self.random.chance(percent) {
                self.steps.push(step(START, routine as u8, 0, 0));
            }
        }
    }
}

/// A random book that follows the rules, but for a while here and there whose body may not pause.
pub fn random_book(random: &mut Random) -> Vec<u8> {
    let routines = if random.chance(5) {
        MOST_ROUTINES
    } else {
        1 + random.below(8)
    };
    let (signals, counters) = (random.below(6), random.below(6));
    let mut maker = Maker {
        random,
        routines,
        signals,
        counters,
        steps: Vec::new(),
    };
    let mut parts = Vec::new();
    let mut room = MOST_STEPS;
    for routine in 0..routines {
        maker.steps.clear();
        if routine == 0 {
            maker.starts();
        }
        maker.routine_steps();
        if maker.steps.len() > room {
            maker.steps.clear();
        }
        room -= maker.steps.len();
        parts.push(maker.steps.clone());
    }
    book(&parts, signals as u16, counters as u16)
}

/// Where the steps of a book begin, if it has any at all.
fn steps_of(book: &[u8]) -> Option<(usize, usize)> {
    if book.len() < 12 {
        return None;
    }
    let from = 12 + 4 * usize::from(book[0]);
    (from + 8 <= book.len()).then(|| (from, (book.len() - from) / 8))
}

/// Damages a book in one place or a few.
pub fn damage(random: &mut Random, book: &mut Vec<u8>) {
    for _ in 0..1 + random.below(3) {
        match (random.below(8), steps_of(book)) {
            (0, _) => book.truncate(random.below(book.len() + 1)),
            (1, _) => book.extend(vec![random.below(256) as u8; 1 + random.below(8)]),
            (2, _) if !book.is_empty() => {
                let at = random.below(book.len());
                book[at] = random.below(256) as u8;
            }
            (3, _) if !book.is_empty() => {
                let at = random.below(book.len().min(32));
                book[at] = book[at].wrapping_add(1);
            }
            (4 | 5, Some((from, count))) => {
                let at = from + 8 * random.below(count);
                book[at] = random.below(22) as u8;
            }
            (6, Some((from, count))) => {
                let (one, other) = (random.below(count), random.below(count));
                for byte in 0..8 {
                    book.swap(from + 8 * one + byte, from + 8 * other + byte);
                }
            }
            (7, Some((from, count))) => {
                let at = from + 8 * random.below(count);
                let op = [IF, ELSE, WHILE, END, REST, MARK][random.below(6)];
                book[at..at + STEP].copy_from_slice(&bare(op));
            }
            _ => {}
        }
    }
}

/// Bytes that are no book at all, or hardly one.
pub fn noise(random: &mut Random) -> Vec<u8> {
    let length = random.below(64);
    let values = if random.chance(50) { 256 } else { 3 };
    (0..length).map(|_| random.below(values) as u8).collect()
}
