//! Holds the library's calls on games that are kept as stored bytes to the plain ones, on the games of random plays.

use crate::compare_plays::Case;
use crate::compare_stores::damage;
use crate::game::{Game, Round, MOST_STORED};
use crate::random::Random;
use crate::tally::{Tally, BEHIND};
use crate::{books, library, plain};

/// A call on a book, a buffer with a kept game of so many bytes, and a buffer for marks, which only a round uses.
type Call<'a> = &'a dyn Fn(&[u8], &mut [u8], usize, &mut [i32]) -> Round;

/// What a call answers, with both buffers and what is behind them.
type Answer = (Round, Vec<u8>, Vec<i32>);

/// A kept game that is lent to a call, and the case with the book and the buffer for marks.
struct Lent<'a> {
    case: &'a Case<'a>,
    buffer: Vec<u8>,
    length: usize,
}

impl Lent<'_> {
    fn room(&self) -> usize {
        self.buffer.len() - BEHIND
    }

    fn answer(&self, call: Call) -> Answer {
        let Case { book, buffer, .. } = self.case;
        let (mut game, mut marks) = (self.buffer.clone(), buffer.clone());
        let lent_game = &mut game[..self.room()];
        let lent_marks = &mut marks[..buffer.len() - BEHIND];
        let answer = call(book, lent_game, self.length, lent_marks);
        (answer, game, marks)
    }
}

/// Holds the library's call to the plain one. Both may change the two buffers.
fn hold(tally: &mut Tally, lent: &Lent, by_library: Call, by_plain: Call) -> Round {
    let (found, expected) = (lent.answer(by_library), lent.answer(by_plain));
    tally.count(expected.0.verdict.number, found == expected, || {
        format!(
            "{}: {:?}, expected {:?}, buffer the same: {}, marks the same: {}, room {}, length {}, buffer {}, book {}",
            lent.case.name,
            found.0,
            expected.0,
            found.1 == expected.1,
            found.2 == expected.2,
            lent.room(),
            lent.length,
            books::digits(&lent.buffer),
            books::digits(&lent.case.book)
        )
    });
    expected.0
}

/// Lends games as bytes. The random numbers are its own, and the plays are the same with and without them.
struct Lender {
    random: Random,
    /// The bytes of the last game that has any.
    bytes: Vec<u8>,
}

impl Lender {
    /// The bytes of a game, whether it fits or not, and now and then with damage; where it has none, those of the game before.
    fn bytes_of(&mut self, game: &Game) -> Vec<u8> {
        if let Some(bytes) = plain::kept::bytes_of(game) {
            self.bytes = bytes;
        }
        let mut bytes = self.bytes.clone();
        if self.random.chance(10) {
            damage(&mut self.random, &mut bytes);
        }
        bytes
    }

    /// Lends bytes in a buffer of so much room, as far as they go into it, with other bytes behind them; now and then with another length
    /// than theirs, which may be beyond the room.
    fn lend<'a>(&mut self, case: &'a Case, bytes: &[u8], room: usize) -> Lent<'a> {
        let mut buffer = bytes.to_vec();
        buffer.resize(room + BEHIND, self.random.below(256) as u8);
        let length = match self.random.below(30) {
            0 => self.random.below(room + 1),
            1 => room + 1 + self.random.below(BEHIND),
            2 => usize::MAX - self.random.below(2),
            _ => bytes.len(),
        };
        Lent {
            case,
            buffer,
            length,
        }
    }

    /// Lends the case's game in just as much room as it has bytes, in one byte less than the call needs, in just what it needs and in room
    /// for every game.
    fn lend_all<'a>(&mut self, case: &'a Case, call: Call) -> [Lent<'a>; 4] {
        let bytes = self.bytes_of(&case.game);
        let mut roomy = self.lend(case, &bytes, MOST_STORED);
        roomy.length = bytes.len();
        let needed = roomy.answer(call).0.length;
        let rooms = [bytes.len(), needed.saturating_sub(1), needed, MOST_STORED];
        rooms.map(|room| self.lend(case, &bytes, room))
    }
}

/// The calls that are compared.
pub struct Kept {
    lender: Lender,
    set_ups: Tally,
    orders: Tally,
    rounds: Tally,
    fits: Tally,
    lengths: Tally,
    /// Of the accepted rounds: how many cut something off, how many left a game that fills its room, and the longest game that one left.
    cut: usize,
    filled: usize,
    longest: usize,
}

impl Kept {
    pub fn new() -> Kept {
        Kept {
            lender: Lender {
                random: Random(0),
                bytes: Vec::new(),
            },
            set_ups: Tally::new("set-ups of kept games"),
            orders: Tally::new("orders to kept games"),
            rounds: Tally::new("rounds of kept games"),
            fits: Tally::new("kept games that fit or do not"),
            lengths: Tally::new("lengths of kept games"),
            cut: 0,
            filled: 0,
            longest: 0,
        }
    }

    pub fn set_up(&mut self, case: &Case) {
        let by_library: Call = &|book, buffer, _, _| library::kept::set_up(book, buffer).into();
        let by_plain: Call = &|book, buffer, _, _| plain::kept::set_up(book, buffer).into();
        for lent in self.lender.lend_all(case, by_plain) {
            hold(&mut self.set_ups, &lent, by_library, by_plain);
        }
    }

    pub fn order(&mut self, case: &Case, kind: u32, number: u32) {
        let by_library: Call = &|book, buffer, length, _| {
            library::kept::order(book, buffer, length, kind, number).into()
        };
        let by_plain: Call = &|book, buffer, length, _| {
            plain::kept::order(book, buffer, length, kind, number).into()
        };
        for lent in self.lender.lend_all(case, by_plain) {
            hold(&mut self.orders, &lent, by_library, by_plain);
        }
    }

    /// Plays a round on both sides, and asks both whether the game fits and how long it is.
    pub fn round(&mut self, case: &Case) {
        for lent in self.lender.lend_all(case, &plain::kept::play) {
            let played = hold(
                &mut self.rounds,
                &lent,
                &library::kept::play,
                &plain::kept::play,
            );
            self.cut += usize::from(played.lost > 0);
            self.filled += usize::from(played.length > 0 && played.length == lent.room());
            self.longest = self.longest.max(played.length);
            self.ask(&lent);
        }
    }

    fn ask(&mut self, lent: &Lent) {
        hold(
            &mut self.fits,
            lent,
            &|book, buffer, length, _| library::kept::fits(book, buffer, length).into(),
            &|book, buffer, length, _| plain::kept::fits(book, buffer, length).into(),
        );
        hold(
            &mut self.lengths,
            lent,
            &|book, buffer, _, _| library::kept::stored_length(book, buffer).into(),
            &|book, buffer, _, _| plain::kept::stored_length(book, buffer).into(),
        );
    }

    /// Whether all calls are answered alike, and each number often enough.
    pub fn is_right(&self) -> bool {
        let are_right = [
            self.set_ups.is_right(&[0, 1, 2, 3, 4, 5, 6, 7, 14]),
            self.orders
                .is_right(&[0, 1, 2, 3, 4, 5, 6, 7, 8, 9, 13, 14]),
            self.rounds
                .is_right(&[0, 1, 2, 3, 4, 5, 6, 7, 9, 10, 13, 14]),
            self.fits.is_right(&[0, 1, 2, 3, 4, 5, 6, 7, 9, 13]),
            self.lengths.is_right(&[0, 1, 2, 3, 4, 5, 6, 7, 9, 13]),
        ];
        println!(
            "of the rounds of kept games, {} cut something off and {} left a game that fills its room, of {} bytes at most",
            self.cut, self.filled, self.longest
        );
        let seen = self.cut >= 100 && self.filled >= 100 && self.longest == MOST_STORED;
        if !seen {
            println!("fewer than 100 did one of both, or none left a game of {MOST_STORED} bytes");
        }
        are_right == [true; 5] && seen
    }
}
