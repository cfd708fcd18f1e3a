//! Times the library's calls beside the plain ones.

use std::hint::black_box;

use crate::game::{Game, Outcome, Stored, MOST_ROUTINES};
use crate::side_by_side::{medians, play_all, BATCHES};
use crate::timed_books::{timed_books, TimedBook};
use crate::{books, library, plain, time_kept};

/// The room in which every game can be stored.
const STORED_ROOM: usize = 1024;

/// Times the same work of so many calls on both sides, and prints the medians for a call.
pub fn time(name: &str, calls: usize, by_library: impl FnMut(), by_plain: impl FnMut()) {
    let (library_time, plain_time) = medians(calls, by_library, by_plain);
    println!(
        "{name}: library {library_time:.1} ns, plain {plain_time:.1} ns, plain / library {:.2}",
        plain_time / library_time
    );
}

fn time_reading(name: &str, book: &[u8]) {
    assert!(
        library::read(book).is_accepted() && plain::read(book).is_accepted(),
        "{name}: not accepted"
    );
    time(
        &format!("{name}, reading ({} bytes)", book.len()),
        1,
        || {
            black_box(library::read(black_box(book)));
        },
        || {
            black_box(plain::read(black_box(book)));
        },
    );
}

fn time_unstarted(name: &str, book: &[u8]) {
    let (mut by_library, mut by_plain) = ([0; MOST_ROUTINES], [0; MOST_ROUTINES]);
    let found = library::unstarted(book, &mut by_library);
    let expected = plain::unstarted(book, &mut by_plain);
    assert!(
        found == expected && by_library == by_plain && expected.verdict.is_accepted(),
        "{name}: names differ or are refused"
    );
    time(
        &format!("{name}, routines that nobody starts"),
        1,
        || {
            black_box(library::unstarted(black_box(book), &mut by_library));
        },
        || {
            black_box(plain::unstarted(black_box(book), &mut by_plain));
        },
    );
}

/// The games of a play from set-up on, each as lent to a round. Both sides have to answer each round alike.
fn games_of(timed: &TimedBook) -> Vec<Game> {
    let book = &timed.book;
    let room = vec![0; 2 * plain::mark_steps(book)];
    let mut game = Game::set_up(plain::counts(book));
    let mut games = Vec::new();
    for _ in 0..timed.rounds {
        let (mut by_library, mut by_plain) = (room.clone(), room.clone());
        let expected = plain::play(book, game, &mut by_plain);
        let found = library::play(book, game, &mut by_library);
        assert!(
            expected.verdict.is_accepted(),
            "{}: not accepted",
            timed.name
        );
        assert!(
            found == expected && by_library == by_plain,
            "{}: answers differ",
            timed.name
        );
        games.push(game);
        game = expected.game;
    }
    games
}

/// Tests whether each game fits, which it does. Both sides take the game by value.
#[inline(always)]
fn fit_all(fits: impl Fn(&[u8], Game) -> bool, book: &[u8], games: &[Game]) {
    for game in games {
        assert!(fits(black_box(book), *black_box(game)));
    }
}

fn time_fitting(timed: &TimedBook, games: &[Game]) {
    time(
        &format!("{}, fitting", timed.name),
        games.len(),
        || fit_all(library::fits, &timed.book, games),
        || fit_all(plain::fits, &timed.book, games),
    );
}

/// Sets up each game anew. Both sides take the game by value and answer by value, as a round does.
#[inline(always)]
fn set_up_all(set_up: impl Fn(&[u8], Game) -> Outcome, book: &[u8], games: &[Game]) {
    for game in games {
        black_box(&set_up(black_box(book), *black_box(game)));
    }
}

fn time_set_up(timed: &TimedBook, games: &[Game]) {
    let book = &timed.book;
    for &game in games {
        let (found, expected) = (library::set_up(book, game), plain::set_up(book, game));
        assert!(
            found == expected && expected.verdict.is_accepted(),
            "{}: set-up differs or is refused",
            timed.name
        );
    }
    time(
        &format!("{}, set-up", timed.name),
        games.len(),
        || set_up_all(library::set_up, book, games),
        || set_up_all(plain::set_up, book, games),
    );
}

/// An order: a game, by value or as bytes, a kind and a number.
pub type Order<'a, G> = (&'a G, u32, u32);

/// An order of each kind for each game; the numbers are those that the kind may name, in turn.
pub fn orders_for<'a, G>(book: &[u8], games: &'a [G]) -> Vec<Order<'a, G>> {
    let number = |at, kind| (at % plain::nameable(plain::counts(book), kind)) as u32;
    let orders = games
        .iter()
        .enumerate()
        .flat_map(|(at, game)| (0..plain::KINDS).map(move |kind| (game, kind, number(at, kind))));
    orders.collect()
}

/// Gives each order. Both sides take the game by value and answer by value, as a round does.
#[inline(always)]
fn order_all(
    order: impl Fn(&[u8], Game, u32, u32) -> Outcome,
    book: &[u8],
    orders: &[Order<Game>],
) {
    for given in orders {
        let (game, kind, number) = *black_box(given);
        black_box(&order(black_box(book), *game, kind, number));
    }
}

fn time_orders(timed: &TimedBook, games: &[Game]) {
    let book = &timed.book;
    let orders = orders_for(book, games);
    for &(&game, kind, number) in &orders {
        let expected = plain::order(book, game, kind, number);
        let found = library::order(book, game, kind, number);
        assert!(
            found == expected && expected.verdict.is_accepted(),
            "{}: an order differs or is refused",
            timed.name
        );
    }
    time(
        &format!("{}, order", timed.name),
        orders.len(),
        || order_all(library::order, book, &orders),
        || order_all(plain::order, book, &orders),
    );
}

/// The bytes that each game is stored as. Both sides have to store alike, and to read each game back.
fn stored_all(timed: &TimedBook, games: &[Game]) -> Vec<Vec<u8>> {
    let book = &timed.book;
    let store = |game: &Game| {
        let (mut by_library, mut by_plain) = ([0; STORED_ROOM], [0; STORED_ROOM]);
        let found = library::store(book, *game, &mut by_library);
        let expected = plain::store(book, *game, &mut by_plain);
        assert!(
            found == expected && by_library == by_plain && expected.verdict.is_accepted(),
            "{}: a game is stored differently or not at all",
            timed.name
        );
        let bytes = by_plain[..expected.length].to_vec();
        for load in [library::load, plain::load] {
            let read = load(book, &bytes, Game::set_up(game.counts));
            assert!(
                read.verdict.is_accepted() && read.game == *game,
                "{}: a stored game is not read back",
                timed.name
            );
        }
        bytes
    };
    games.iter().map(store).collect()
}

/// Stores each game. Both sides take the game by value.
#[inline(always)]
fn store_all(
    store: impl Fn(&[u8], Game, &mut [u8]) -> Stored,
    book: &[u8],
    games: &[Game],
    out: &mut [u8],
) {
    for game in games {
        black_box(&store(black_box(book), *black_box(game), out));
    }
}

/// Reads each stored game in place of the one that it was. Both sides take the game by value and answer by value, as a round does.
#[inline(always)]
fn load_all(
    load: impl Fn(&[u8], &[u8], Game) -> Outcome,
    book: &[u8],
    games: &[Game],
    stored: &[Vec<u8>],
) {
    for (game, bytes) in games.iter().zip(stored) {
        black_box(&load(black_box(book), black_box(bytes), *black_box(game)));
    }
}

fn time_stores(timed: &TimedBook, games: &[Game], stored: &[Vec<u8>]) {
    let book = &timed.book;
    let (mut by_library, mut by_plain) = ([0; STORED_ROOM], [0; STORED_ROOM]);
    time(
        &format!("{}, storing", timed.name),
        games.len(),
        || store_all(library::store, book, games, &mut by_library),
        || store_all(plain::store, book, games, &mut by_plain),
    );
    time(
        &format!("{}, reading a stored game", timed.name),
        games.len(),
        || load_all(library::load, book, games, stored),
        || load_all(plain::load, book, games, stored),
    );
}

fn time_rounds(timed: &TimedBook, games: &[Game]) {
    let book = &timed.book;
    let mut marks = vec![0; 2 * plain::mark_steps(book)];
    let mut plain_marks = marks.clone();
    time(
        &format!("{}, whole call", timed.name),
        games.len(),
        || play_all(library::play, book, games, &mut marks),
        || play_all(plain::play, book, games, &mut plain_marks),
    );
    // SAFETY: the book was accepted with each of these games and with as much room.
    let round = |book: &[u8], game, marks: &mut [i32]| unsafe { library::round(book, game, marks) };
    time(
        &format!("{}, round alone", timed.name),
        games.len(),
        || play_all(round, book, games, &mut marks),
        || play_all(plain::round, book, games, &mut plain_marks),
    );
}

/// Times the calls on five books, and reading on a sixth.
pub fn time_all() {
    println!("median of {BATCHES} batches, both sides in turn, buffers warm; a ratio to plain above 1 means that the library is faster");
    time_reading("a largest book", &books::largest());
    for timed in timed_books() {
        let games = games_of(&timed);
        let stored = stored_all(&timed, &games);
        time_reading(timed.name, &timed.book);
        time_unstarted(timed.name, &timed.book);
        time_fitting(&timed, &games);
        time_set_up(&timed, &games);
        time_orders(&timed, &games);
        time_stores(&timed, &games, &stored);
        time_rounds(&timed, &games);
        time_kept::time_kept(&timed, &stored);
    }
}
