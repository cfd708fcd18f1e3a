//! Times the library's calls on games that are kept as stored bytes: each call beside the plain one, and a whole play beside the same play
//! by the library's calls by value.

use std::hint::black_box;

use crate::game::{Game, Round, Stored, MOST_STEPS, MOST_STORED};
use crate::side_by_side::medians;
use crate::timed_books::TimedBook;
use crate::timing::{orders_for, time, Order};
use crate::verdict::Verdict;
use crate::{library, plain};

/// How many rounds a whole play has.
const ROUNDS: usize = 100;

/// What a program lends: room for every game, and for the marks of every round.
#[derive(PartialEq)]
struct Lent {
    buffer: [u8; MOST_STORED],
    marks: [i32; 2 * MOST_STEPS],
}

impl Lent {
    fn new() -> Lent {
        Lent {
            buffer: [0; MOST_STORED],
            marks: [0; 2 * MOST_STEPS],
        }
    }

    /// Puts a stored game at the front of the buffer, and gives its length.
    #[inline(always)]
    fn keep(&mut self, bytes: &[u8]) -> usize {
        self.buffer[..bytes.len()].copy_from_slice(bytes);
        bytes.len()
    }
}

/// Holds a call of the library to the plain one for each of these inputs, which have to be accepted, and then times both.
fn time_call<Input: Copy>(
    name: &str,
    inputs: &[Input],
    by_library: impl Fn(Input, &mut Lent) -> Round,
    by_plain: impl Fn(Input, &mut Lent) -> Round,
) {
    let (mut library_lent, mut plain_lent) = (Lent::new(), Lent::new());
    for &input in inputs {
        let found = by_library(input, &mut library_lent);
        let expected = by_plain(input, &mut plain_lent);
        assert!(
            found == expected && library_lent == plain_lent && expected.verdict.is_accepted(),
            "{name}: differs or is refused"
        );
    }
    time(
        name,
        inputs.len(),
        || {
            for &input in inputs {
                black_box(&by_library(black_box(input), &mut library_lent));
            }
        },
        || {
            for &input in inputs {
                black_box(&by_plain(black_box(input), &mut plain_lent));
            }
        },
    );
}

fn time_set_up(timed: &TimedBook) {
    let book = &timed.book;
    time_call(
        &format!("{}, set-up of a kept game", timed.name),
        &[book],
        |book, lent| library::kept::set_up(book, &mut lent.buffer).into(),
        |book, lent| plain::kept::set_up(book, &mut lent.buffer).into(),
    );
}

/// Gives an order. That the stored game is copied to the buffer is counted on both sides.
#[inline(always)]
fn give(
    order: impl Fn(&[u8], &mut [u8], usize, u32, u32) -> Stored,
    book: &[u8],
    (bytes, kind, number): Order<Vec<u8>>,
    lent: &mut Lent,
) -> Round {
    let length = lent.keep(bytes);
    order(book, &mut lent.buffer, length, kind, number).into()
}

fn time_orders(timed: &TimedBook, stored: &[Vec<u8>]) {
    let book = &timed.book;
    time_call(
        &format!("{}, order to a kept game", timed.name),
        &orders_for(book, stored),
        |given, lent| give(library::kept::order, book, given, lent),
        |given, lent| give(plain::kept::order, book, given, lent),
    );
}

/// Plays a round. That the stored game is copied to the buffer is counted on both sides.
#[inline(always)]
fn play_from(
    play: impl Fn(&[u8], &mut [u8], usize, &mut [i32]) -> Round,
    book: &[u8],
    bytes: &[u8],
    lent: &mut Lent,
) -> Round {
    let length = lent.keep(bytes);
    play(book, &mut lent.buffer, length, &mut lent.marks)
}

fn time_rounds(timed: &TimedBook, stored: &[Vec<u8>]) {
    let book = &timed.book;
    time_call(
        &format!("{}, round of a kept game", timed.name),
        &stored.iter().collect::<Vec<_>>(),
        |bytes, lent| play_from(library::kept::play, book, bytes, lent),
        |bytes, lent| play_from(plain::kept::play, book, bytes, lent),
    );
}

/// What is told of a round in both plays: the verdict, the passes, the count of marks and what was cut off.
type Told = (Verdict, usize, usize, usize);

/// A play by value, and the game that it comes to. Each round takes the game that the one before gave back.
#[inline(always)]
fn play_by_value(
    book: &[u8],
    mut game: Game,
    marks: &mut [i32],
    mut told: impl FnMut(Told, &[i32]),
) -> Game {
    game = library::set_up(black_box(book), game).game;
    for _ in 0..ROUNDS {
        let round = library::play(black_box(book), game, marks);
        told(
            (round.verdict, round.passes, round.marks, round.lost),
            marks,
        );
        game = round.game;
    }
    game
}

/// The same play of a game that is kept as bytes, and the length of the one that it comes to.
#[inline(always)]
fn play_kept(book: &[u8], lent: &mut Lent, mut told: impl FnMut(Told, &[i32])) -> usize {
    let Lent { buffer, marks } = lent;
    let mut length = library::kept::set_up(black_box(book), buffer).length;
    for _ in 0..ROUNDS {
        let round = library::kept::play(black_box(book), buffer, length, marks);
        told(
            (round.verdict, round.passes, round.marks, round.lost),
            marks,
        );
        length = round.length;
    }
    length
}

/// Both plays have to be accepted, to tell the same of each round with the same marks, and to come to the same stored game.
fn hold_plays(timed: &TimedBook, game: Game) {
    let book = &timed.book;
    let (mut kept, mut by_value) = (Lent::new(), Lent::new());
    let (mut found, mut expected) = (Vec::new(), Vec::new());
    let length = play_kept(book, &mut kept, |told, marks| {
        found.push((told, marks.to_vec()));
    });
    let last = play_by_value(book, game, &mut by_value.marks, |told, marks| {
        expected.push((told, marks.to_vec()));
    });
    let stored = library::store(book, last, &mut by_value.buffer);
    assert!(
        found == expected
            && found.iter().all(|((verdict, ..), _)| verdict.is_accepted())
            && length == stored.length
            && kept.buffer[..length] == by_value.buffer[..length],
        "{}: the two plays differ or are refused",
        timed.name
    );
}

fn time_plays(timed: &TimedBook) {
    let book = &timed.book;
    let game = Game::set_up(plain::counts(book));
    hold_plays(timed, game);
    let (mut kept, mut marks) = (Lent::new(), [0; 2 * MOST_STEPS]);
    let told = |told: Told, _: &[i32]| {
        black_box(told);
    };
    let (by_value_time, kept_time) = medians(
        ROUNDS,
        || {
            black_box(&play_by_value(book, game, &mut marks, told));
        },
        || {
            black_box(play_kept(book, &mut kept, told));
        },
    );
    println!(
        "{}, a play of {ROUNDS} rounds: by value {by_value_time:.1} ns, kept as bytes {kept_time:.1} ns, kept / by value {:.2}",
        timed.name,
        kept_time / by_value_time
    );
}

/// Times the calls on a book and on the stored games of its play, and a whole play.
pub fn time_kept(timed: &TimedBook, stored: &[Vec<u8>]) {
    time_set_up(timed);
    time_orders(timed, stored);
    time_rounds(timed, stored);
    time_plays(timed);
}
