//! Holds the library's set-ups, orders, rounds, stored games and kept games to the plain ones on random plays.

use crate::compare_kept::Kept;
use crate::compare_stores::Stores;
use crate::game::{Game, Played, LIMIT, MOST_COUNTERS, MOST_ROUTINES, MOST_STEPS};
use crate::random::Random;
use crate::random_books::{damage, random_book};
use crate::random_plays::{displace, poke, random_order};
use crate::steps::{bare, step, Step, ADD, MARK, REST, SIGNAL_NUMBER, TAKE};
use crate::tally::BEHIND;
use crate::timed_books::starts;
use crate::{books, library, plain};

const RANDOM_PLAYS: usize = 100_000;
const MOST_ROUNDS: usize = 12;
const LONGEST_PLAYS: usize = 100;
const SHOWN: usize = 10;

/// A call on a book and a game, and on a buffer, which only a round uses.
type Call<'a> = &'a dyn Fn(&[u8], Game, &mut [i32]) -> Played;

/// What a call answers, with the buffer and what is behind it.
type Answer = (Played, Vec<i32>);

/// What is lent to a call.
pub struct Case<'a> {
    pub name: &'a str,
    pub book: Vec<u8>,
    pub game: Game,
    pub buffer: Vec<i32>,
}

impl Case<'_> {
    fn answer(&self, call: Call) -> Answer {
        let mut buffer = self.buffer.clone();
        let room = buffer.len() - BEHIND;
        (call(&self.book, self.game, &mut buffer[..room]), buffer)
    }
}

/// How often each number was answered to calls of a kind, what the accepted ones came to, and how many answers were different.
struct Tally {
    calls: &'static str,
    numbers: [usize; 12],
    passes: usize,
    marks: usize,
    /// How many calls cut something off, and the most that one of them did.
    cut: usize,
    most_lost: usize,
    differ: usize,
}

impl Tally {
    fn new(calls: &'static str) -> Tally {
        Tally {
            calls,
            numbers: [0; 12],
            passes: 0,
            marks: 0,
            cut: 0,
            most_lost: 0,
            differ: 0,
        }
    }

    /// Holds a call to the answer that is expected.
    fn hold(&mut self, call_name: &str, call: Call, case: &Case, expected: &Answer) {
        let found = case.answer(call);
        if found == *expected {
            return;
        }
        self.differ += 1;
        if self.differ <= SHOWN {
            let told = |(played, _): &Answer| {
                let Played {
                    verdict,
                    passes,
                    marks,
                    lost,
                    ..
                } = played;
                format!("{verdict}, {passes} passes, {marks} marks, {lost} cut off")
            };
            println!(
                "{}, {}, {call_name}: {}",
                case.name,
                self.calls,
                told(&found)
            );
            println!("expected: {}", told(expected));
            println!("game the same: {}", found.0.game == expected.0.game);
            println!("buffer the same: {}", found.1 == expected.1);
            println!("book: {}", books::digits(&case.book));
        }
    }

    /// Holds the library's call to the plain one.
    fn compare(&mut self, case: &Case, by_library: Call, by_plain: Call) -> Answer {
        let expected = case.answer(by_plain);
        self.hold("library", by_library, case, &expected);
        let played = expected.0;
        self.numbers[played.verdict.number as usize] += 1;
        self.passes += played.passes;
        self.marks += played.marks;
        self.cut += usize::from(played.lost > 0);
        self.most_lost = self.most_lost.max(played.lost);
        expected
    }

    fn set_up(&mut self, case: &Case) {
        self.compare(
            case,
            &|book, game, _| library::set_up(book, game).into(),
            &|book, game, _| plain::set_up(book, game).into(),
        );
    }

    fn order(&mut self, case: &Case, kind: u32, number: u32) -> Played {
        let (played, _) = self.compare(
            case,
            &|book, game, _| library::order(book, game, kind, number).into(),
            &|book, game, _| plain::order(book, game, kind, number).into(),
        );
        played
    }

    /// Plays a round on both sides; where it is accepted, without the checks as well.
    fn round(&mut self, case: &Case) -> Played {
        let expected = self.compare(case, &library::play, &plain::play);
        if expected.0.verdict.is_accepted() {
            // SAFETY: the plain call has checked book, game and room.
            let round: Call = &|book, game, marks| unsafe { library::round(book, game, marks) };
            self.hold("library, round alone", round, case, &expected);
            self.hold("plain, round alone", &plain::round, case, &expected);
        }
        expected.0
    }

    /// Whether all calls are answered alike, and each of these numbers was answered often enough.
    fn is_right(&self, told: &[usize]) -> bool {
        let Tally { calls, differ, .. } = self;
        let total: usize = self.numbers.iter().sum();
        println!("compared: {total} {calls}");
        println!("answers 0 to 11: {:?}", self.numbers);
        println!("different: {differ} of {total}");
        let seen = told.iter().all(|&number| self.numbers[number] >= 100);
        if !seen {
            println!("some number was answered fewer than 100 times");
        }
        *differ == 0 && seen
    }
}

/// A buffer of random numbers: mostly with just enough room for the book's marks, else with too little or too much.
fn random_buffer(random: &mut Random, marks: usize) -> Vec<i32> {
    let room = match random.below(10) {
        0 => random.below(2 * marks + 1),
        1..=3 => 2 * marks + random.below(10),
        _ => 2 * marks,
    };
    (0..room + BEHIND)
        .map(|_| random.below(1 << 32) as u32 as i32)
        .collect()
}

fn random_accepted_book(random: &mut Random) -> Vec<u8> {
    loop {
        let book = random_book(random);
        if plain::read(&book).is_accepted() {
            return book;
        }
    }
}

/// What is lent to a call in a play of this book, which has so many mark steps. Now and then the book is damaged, or the game changed from
/// outside.
fn lent<'a>(random: &mut Random, name: &'a str, book: &[u8], marks: usize, game: Game) -> Case<'a> {
    let mut case = Case {
        name,
        book: book.to_vec(),
        game,
        buffer: Vec::new(),
    };
    match random.below(20) {
        0 => damage(random, &mut case.book),
        1..=3 => (0..1 + random.below(3)).for_each(|_| poke(random, &mut case.game)),
        4..=7 => displace(random, book, &mut case.game),
        _ => {}
    }
    case.buffer = random_buffer(random, marks);
    case
}

/// The calls that are compared.
struct Tallies {
    set_ups: Tally,
    orders: Tally,
    rounds: Tally,
    stores: Stores,
    kept: Kept,
}

impl Tallies {
    /// Plays a round of a game by value and of the same game kept as bytes.
    fn round(&mut self, case: &Case) -> Played {
        self.kept.round(case);
        self.rounds.round(case)
    }
}

/// A play of a few rounds from set-up on, with orders. Where a call is turned down or was lent another book, the play goes on from the game
/// before. What a round is lent is lent to set-up and to storing too, and what any call is lent by value is lent to it as bytes too; the
/// play does not go on from that.
fn random_play(tallies: &mut Tallies, play: usize) {
    let name = format!("play {play}");
    let mut random = Random(play as u64);
    let book = random_accepted_book(&mut random);
    let marks = plain::mark_steps(&book);
    let mut game = Game::set_up(plain::counts(&book));
    for _ in 0..1 + random.below(MOST_ROUNDS) {
        for _ in 0..random.below(6).saturating_sub(3) {
            let (kind, number) = random_order(&mut random, game.counts);
            let case = lent(&mut random, &name, &book, marks, game);
            tallies.kept.order(&case, kind, number);
            let played = tallies.orders.order(&case, kind, number);
            if played.verdict.is_accepted() && case.book == book {
                game = played.game;
            }
        }
        let case = lent(&mut random, &name, &book, marks, game);
        tallies.set_ups.set_up(&case);
        tallies.kept.set_up(&case);
        tallies.stores.compare(&name, &case.book, case.game);
        let played = tallies.round(&case);
        if played.verdict.is_accepted() && case.book == book {
            game = played.game;
        }
    }
}

/// A round of nothing but one step, so many times.
fn full_play(tallies: &mut Tallies, only: Step, count: usize, counter: i32) {
    let book = books::book(&[vec![only; count]], 1, 1);
    let mut game = Game::set_up(plain::counts(&book));
    game.counters[0] = counter;
    tallies.round(&Case {
        name: &format!("{count} steps of op {}, counter {counter}", only[0]),
        game,
        buffer: vec![-1; 2 * plain::mark_steps(&book) + BEHIND],
        book,
    });
}

/// Rounds of nothing but marks, nothing but numbers given, and nothing but additions to a counter that is at an end, of which each cuts off
/// all that it adds; the longest books that there are among them.
fn full_plays(tallies: &mut Tallies) {
    for count in [63, 64, 65, 255, 256, 257, MOST_STEPS] {
        full_play(tallies, bare(MARK), count, 0);
        full_play(tallies, bare(SIGNAL_NUMBER), count, 0);
        for end in [-LIMIT, LIMIT] {
            full_play(tallies, step(ADD, 0, 0, end), count, end);
            full_play(tallies, step(TAKE, 0, 0, 0), count, end);
        }
    }
}

/// Rounds behind which every routine is listed or to start, with as many routines and counters as there may be: no stored game is longer.
fn longest_plays(tallies: &mut Tallies) {
    let mut first = starts(MOST_ROUTINES as u8);
    first.push(bare(REST));
    let mut routines = vec![Vec::new(); MOST_ROUTINES];
    routines[0] = first;
    let book = books::book(&routines, 0, MOST_COUNTERS as u16);
    let mut case = Case {
        name: "64 routines",
        game: Game::set_up(plain::counts(&book)),
        buffer: vec![-1; BEHIND],
        book,
    };
    for _ in 0..LONGEST_PLAYS {
        case.game = Game::set_up(case.game.counts);
        case.game = tallies.round(&case).game;
        tallies.round(&case);
    }
}

/// Whether all calls are answered alike, and each number often enough. 8 is an answer of orders alone, and 11 is never told.
pub fn compare_plays() -> bool {
    let mut tallies = Tallies {
        set_ups: Tally::new("set-ups"),
        orders: Tally::new("orders"),
        rounds: Tally::new("rounds"),
        stores: Stores::new(),
        kept: Kept::new(),
    };
    for play in 0..RANDOM_PLAYS {
        random_play(&mut tallies, play);
    }
    full_plays(&mut tallies);
    longest_plays(&mut tallies);
    println!(
        "{RANDOM_PLAYS} random plays, and rounds of nothing but marks, numbers given, additions or starts"
    );
    let Tallies {
        set_ups,
        orders,
        rounds,
        stores,
        kept,
    } = tallies;
    let set_ups_right = set_ups.is_right(&[0, 1, 2, 3, 4, 5, 6, 7]);
    let orders_right = orders.is_right(&[0, 1, 2, 3, 4, 5, 6, 7, 8, 9]);
    let rounds_right = rounds.is_right(&[0, 1, 2, 3, 4, 5, 6, 7, 9, 10]);
    let stores_right = stores.is_right();
    let kept_right = kept.is_right();
    println!(
        "accepted: {} rounds with {} passes and {} marks",
        rounds.numbers[0], rounds.passes, rounds.marks
    );
    println!(
        "{} of them cut something off, {} at most",
        rounds.cut, rounds.most_lost
    );
    let cut_seen = rounds.cut >= 100;
    if !cut_seen {
        println!("fewer than 100 rounds cut something off");
    }
    set_ups_right && orders_right && rounds_right && stores_right && kept_right && cut_seen
}
