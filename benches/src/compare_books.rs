//! Holds the library to the plain reader, and both to the vectors, on many books.

use std::path::Path;

use crate::random::Random;
use crate::random_books::{damage, noise, random_book};
use crate::verdict::Verdict;
use crate::{books, library, plain};

const RANDOM_BOOKS: usize = 100_000;
const SHOWN: usize = 10;

/// What a buffer for names holds before a call; no routine has this number.
const UNTOUCHED: u8 = 255;

/// How often each number was answered, how many routines were named, how many buffers were too short, how many routines with steps were
/// shown, and how much was answered differently.
#[derive(Default)]
struct Tally {
    numbers: [usize; 8],
    named: usize,
    short: usize,
    shown: usize,
    differ: usize,
}

impl Tally {
    fn compare(&mut self, book: &[u8], expected: Verdict) {
        let found = library::read(book);
        self.numbers[expected.number as usize] += 1;
        if found != expected {
            self.count_different(&format!("library {found}, expected {expected}"), book);
        }
        self.compare_names(book);
        self.compare_parts(book);
    }

    /// The routines that nobody starts, with a buffer that is too short, just long enough and longer; the whole buffer counts.
    fn compare_names(&mut self, book: &[u8]) {
        let routines = book.first().map_or(0, |&count| count as usize);
        for room in [routines.saturating_sub(1), routines, routines + 9] {
            let (mut by_library, mut by_plain) = (vec![UNTOUCHED; room], vec![UNTOUCHED; room]);
            let found = library::unstarted(book, &mut by_library);
            let expected = plain::unstarted(book, &mut by_plain);
            self.named += expected.count;
            self.short += usize::from(expected.verdict.number == 12);
            if found != expected || by_library != by_plain {
                self.count_different(&format!("library names {found:?} {by_library:?}"), book);
            }
        }
    }

    /// Where the steps of each routine stand, and what is answered for three numbers that are no routines.
    fn compare_parts(&mut self, book: &[u8]) {
        let routines = book.first().map_or(0, |&count| count.into());
        for routine in (0..=routines).chain([1 << 16, u32::MAX]) {
            let (found, expected) = (library::show(book, routine), plain::show(book, routine));
            self.shown += usize::from(expected.length > 0);
            if found != expected {
                self.count_different(&format!("library shows {routine} at {found:?}"), book);
            }
        }
    }

    fn count_different(&mut self, what: &str, book: &[u8]) {
        self.differ += 1;
        if self.differ <= SHOWN {
            println!("{what}: {}", books::digits(book));
        }
    }

    fn total(&self) -> usize {
        self.numbers.iter().sum()
    }
}

fn vectors_text() -> String {
    let path = Path::new(env!("CARGO_MANIFEST_DIR")).join("../crates/book_vectors/stdin");
    std::fs::read_to_string(&path).unwrap_or_else(|error| panic!("{}: {error}", path.display()))
}

/// Both readers on the vectors, against what these expect.
fn compare_vectors(tally: &mut Tally, vectors: &[(Verdict, Vec<u8>)]) {
    for (expected, book) in vectors {
        tally.compare(book, *expected);
        let own = plain::read(book);
        if own != *expected {
            tally.differ += 1;
            println!("plain reader {own}, expected {expected}");
        }
    }
}

/// The library against the plain reader, on random books and on damaged ones.
fn compare_random(tally: &mut Tally, vectors: &[(Verdict, Vec<u8>)]) {
    let mut random = Random(1);
    for turn in 0..RANDOM_BOOKS {
        let mut book = match turn % 4 {
            0 => vectors[random.below(vectors.len())].1.clone(),
            1 => noise(&mut random),
            _ => random_book(&mut random),
        };
        if turn % 4 < 3 {
            damage(&mut random, &mut book);
        }
        tally.compare(&book, plain::read(&book));
    }
}

/// Whether all books are answered alike, and each number often enough.
pub fn compare_books() -> bool {
    let vectors = books::vectors(&vectors_text());
    let mut tally = Tally::default();
    compare_vectors(&mut tally, &vectors);
    compare_random(&mut tally, &vectors);
    println!(
        "compared: {} vectors, {RANDOM_BOOKS} random and damaged books",
        vectors.len()
    );
    println!("answers 0 to 7: {:?}", tally.numbers);
    println!(
        "routines that nobody starts: {} named, {} buffers too short",
        tally.named, tally.short
    );
    println!("routines shown: {} with steps", tally.shown);
    println!(
        "different: {} of {}, their names and their parts",
        tally.differ,
        tally.total()
    );
    let others = [tally.named, tally.short, tally.shown];
    let seen = tally
        .numbers
        .iter()
        .chain(&others)
        .all(|&count| count >= 100);
    if !seen {
        println!("some number was answered, routines were named or shown or a buffer was too short fewer than 100 times");
    }
    tally.differ == 0 && seen
}
