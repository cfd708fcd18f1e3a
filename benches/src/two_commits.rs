//! Times books full of tests, played by the library of one commit and by that of another.

// The other files serve the program `benches` too, and each has more than is used here.
#![allow(dead_code)]

mod books;
mod game;
mod random;
mod side_by_side;
mod steps;
mod verdict;

use crate::game::{Counts, Game, Played, LIMIT, MOST_STEPS};
use crate::random::Random;
use crate::side_by_side::{medians, play_all, BATCHES};
use crate::steps::*;

extern "C" {
    fn zulqenat_play_before(
        book: *const u8,
        length: usize,
        game: Game,
        marks: *mut i32,
        room: usize,
    ) -> Played;

    fn zulqenat_play_after(
        book: *const u8,
        length: usize,
        game: Game,
        marks: *mut i32,
        room: usize,
    ) -> Played;
}

/// Plays a round by the library of the first commit.
#[inline(always)]
fn before(book: &[u8], game: Game, marks: &mut [i32]) -> Played {
    let (room, marks) = (marks.len(), marks.as_mut_ptr());
    // SAFETY: the pointers and lengths are those of two slices; the call reads the first, writes the second and keeps neither.
    unsafe { zulqenat_play_before(book.as_ptr(), book.len(), game, marks, room) }
}

/// Plays a round by the library of the second commit.
#[inline(always)]
fn after(book: &[u8], game: Game, marks: &mut [i32]) -> Played {
    let (room, marks) = (marks.len(), marks.as_mut_ptr());
    // SAFETY: as above.
    unsafe { zulqenat_play_after(book.as_ptr(), book.len(), game, marks, room) }
}

/// How many rounds of a book's play from set-up on are timed.
const ROUNDS: usize = 40;

/// Counter 0 keeps the loop going; the others are drawn anew for each round, so that a test comes out now one way and now another.
const COUNTERS: u8 = 8;

/// How far from 0 the counters and the n of the tests lie at most: so near that each of the three relations holds often.
const FARTHEST: usize = 3;

/// The steps beside the tests: the loop and its end, and a rest.
const OTHER_STEPS: usize = 3;

/// As many tests as there is room for in a book of one routine: an if and its end each.
const TESTS: usize = (MOST_STEPS - OTHER_STEPS) / 2;

/// A number from `-end` to `end`.
fn around_zero(random: &mut Random, end: usize) -> i32 {
    random.below(2 * end + 1) as i32 - end as i32
}

/// A book of one routine that loops for ever over its tests, and rests once a round.
fn tests(relation: impl Fn(&mut Random, usize) -> u16) -> Vec<u8> {
    let random = &mut Random(5);
    let mut steps = vec![step(WHILE, 0, LESS, LIMIT)];
    for test in 0..TESTS {
        let counter = 1 + random.below(COUNTERS as usize - 1) as u8;
        let by = relation(random, test);
        steps.push(step(IF, counter, by, around_zero(random, FARTHEST)));
        steps.push(bare(END));
    }
    steps.extend([bare(REST), bare(END)]);
    books::book(&[steps], 0, COUNTERS.into())
}

/// The games of a play from set-up on, each as lent to a round, with counters of its own. Both commits have to answer each round alike.
fn games_of(name: &str, book: &[u8]) -> Vec<Game> {
    let mut game = Game::set_up(Counts {
        routines: 1,
        signals: 0,
        counters: COUNTERS.into(),
    });
    let mut games = Vec::new();
    let random = &mut Random(6);
    for _ in 0..ROUNDS {
        for counter in &mut game.counters[1..COUNTERS as usize] {
            *counter = around_zero(random, FARTHEST);
        }
        let (first, second) = (before(book, game, &mut []), after(book, game, &mut []));
        assert!(first.verdict.is_accepted(), "{name}: not accepted");
        assert!(first == second, "{name}: answers differ");
        games.push(game);
        game = first.game;
    }
    games
}

fn time(name: &str, book: &[u8]) {
    let games = games_of(name, book);
    let (before_time, after_time) = medians(
        games.len(),
        || play_all(before, book, &games, &mut []),
        || play_all(after, book, &games, &mut []),
    );
    println!(
        "{name}: before {before_time:.1} ns, after {after_time:.1} ns, before / after {:.2}",
        before_time / after_time
    );
}

fn main() {
    println!("a round of {TESTS} tests, median of {BATCHES} batches, both commits in turn; a ratio above 1 means the second is faster");
    time(
        "relations in turn",
        &tests(|_, test| (test % RELATIONS as usize) as u16),
    );
    time(
        "relations at random",
        &tests(|random, _| random.below(RELATIONS.into()) as u16),
    );
}
