//! Books: how one is put together, the vectors, T3's, and a largest one that is read for time.

use crate::game::LIMIT;
use crate::steps::*;
use crate::verdict::Verdict;

/// The books of the vectors' file, with the verdicts that it expects.
pub fn vectors(text: &str) -> Vec<(Verdict, Vec<u8>)> {
    text.lines().map(vector).collect()
}

fn vector(line: &str) -> (Verdict, Vec<u8>) {
    let words: Vec<&str> = line.split(' ').collect();
    let [number, place, digits] = words[..] else {
        panic!("not a line of number, place and book: {line}");
    };
    let verdict = Verdict {
        number: number.parse().unwrap(),
        place: place.parse().unwrap(),
    };
    (verdict, bytes(digits))
}

fn bytes(digits: &str) -> Vec<u8> {
    if digits == "-" {
        return Vec::new();
    }
    let byte = |at: usize| u8::from_str_radix(&digits[at..at + 2], 16).unwrap();
    (0..digits.len()).step_by(2).map(byte).collect()
}

/// A book's bytes in hexadecimal.
pub fn digits(book: &[u8]) -> String {
    book.iter().map(|byte| format!("{byte:02x}")).collect()
}

/// The book of these routines, with so many signals and counters.
pub fn book(routines: &[Vec<Step>], signals: u16, counters: u16) -> Vec<u8> {
    let r = routines.len() as u16;
    let total: usize = routines.iter().map(Vec::len).sum();
    let mut halves = vec![r, total as u16, signals, counters, 12, 12 + 4 * r];
    let mut first = 0;
    for steps in routines {
        halves.extend([first, steps.len() as u16]);
        first += steps.len() as u16;
    }
    let mut book: Vec<u8> = halves.iter().flat_map(|half| half.to_le_bytes()).collect();
    book.extend(routines.iter().flatten().flatten());
    book
}

/// A largest book: all counts at their ends, 31 routines with blocks 16 deep, one of one step, the others empty.
pub fn largest() -> Vec<u8> {
    let mut deep = vec![step(IF, 63, GREATER, LIMIT); DEEPEST - 1];
    deep.extend([step(WHILE, 63, LESS, -LIMIT), bare(REST)]);
    deep.extend([bare(END); DEEPEST]);
    let mut routines = vec![deep; 31];
    routines.push(vec![step(MARK, 0, 0, 7)]);
    routines.resize(64, Vec::new());
    book(&routines, 64, 64)
}

/// The book of set play T3.
pub fn t3() -> Vec<u8> {
    let first = vec![
        step(START, 1, 0, 0),
        step(WAIT, 0, 0, 0),
        step(MARK, 0, 0, 7),
    ];
    book(&[first, vec![step(SIGNAL, 0, 0, 0)]], 1, 0)
}
