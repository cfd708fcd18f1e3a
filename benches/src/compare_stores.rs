//! Holds the library's storing and reading of games to the plain ones, on the games of random plays.

use crate::game::{Game, Stored};
use crate::random::Random;
use crate::tally::{Tally, BEHIND};
use crate::{books, library, plain};

/// Room for any stored game.
const ROOM: usize = 1024;

/// The calls that are compared. The random numbers are their own, and the plays are the same with and without them.
pub struct Stores {
    random: Random,
    stores: Tally,
    loads: Tally,
    /// What was stored last.
    bytes: Vec<u8>,
}

/// Once, now and then twice: changes a byte, cuts the bytes short, or makes them longer.
pub fn damage(random: &mut Random, bytes: &mut Vec<u8>) {
    for _ in 0..1 + random.below(4).saturating_sub(2) {
        match random.below(8) {
            0 => bytes.truncate(random.below(bytes.len() + 1)),
            1 => bytes.extend(vec![random.below(3) as u8; 1 + random.below(8)]),
            kind if !bytes.is_empty() => {
                let at = random.below(bytes.len());
                bytes[at] = match kind {
                    2 | 3 => random.below(256) as u8,
                    4 | 5 => random.below(6) as u8,
                    6 => bytes[at].wrapping_add(1),
                    _ => bytes[at] ^ 1 << random.below(8),
                };
            }
            _ => {}
        }
    }
}

impl Stores {
    pub fn new() -> Stores {
        Stores {
            random: Random(0),
            stores: Tally::new("games stored"),
            loads: Tally::new("stored games read"),
            bytes: Vec::new(),
        }
    }

    /// A buffer of random bytes for a game that takes so many: mostly with enough room.
    fn buffer(&mut self, length: usize) -> Vec<u8> {
        let room = match self.random.below(10) {
            0 => self.random.below(length + 1),
            1..=3 => length + self.random.below(10),
            _ => length,
        };
        (0..room + BEHIND)
            .map(|_| self.random.below(256) as u8)
            .collect()
    }

    /// Stores a game on both sides.
    fn store(&mut self, name: &str, book: &[u8], game: Game) {
        let length = plain::store(book, game, &mut [0; ROOM]).length;
        let buffer = self.buffer(length);
        let room = buffer.len() - BEHIND;
        let answer = |store: fn(&[u8], Game, &mut [u8]) -> Stored| {
            let mut out = buffer.clone();
            (store(book, game, &mut out[..room]), out)
        };
        let (expected, found) = (answer(plain::store), answer(library::store));
        let number = expected.0.verdict.number;
        self.stores.count(number, found == expected, || {
            format!(
                "{name}: {:?}, expected {:?}, book {}",
                found.0,
                expected.0,
                books::digits(book)
            )
        });
        if number == 0 {
            self.bytes = expected.1[..length].to_vec();
            self.load(name, book, Some(game), Game::set_up(game.counts));
        }
    }

    /// Reads the bytes on both sides. They stand for this game, if for any that is known, and where they are accepted it is stored as them.
    fn load(&mut self, name: &str, book: &[u8], game: Option<Game>, lent: Game) {
        let bytes = &self.bytes;
        let expected = plain::load(book, bytes, lent);
        let found = library::load(book, bytes, lent);
        let mut out = [0; ROOM];
        let stored = plain::store(book, expected.game, &mut out);
        let is_kept = !expected.verdict.is_accepted() || out[..stored.length] == bytes[..];
        let is_right = found == expected && is_kept && game.is_none_or(|game| found.game == game);
        self.loads.count(expected.verdict.number, is_right, || {
            format!(
                "{name}: {}, expected {}, stored game {}, book {}",
                found.verdict,
                expected.verdict,
                books::digits(bytes),
                books::digits(book)
            )
        });
    }

    /// Stores a game and reads it back, then reads what was stored last with damage, in place of the game.
    pub fn compare(&mut self, name: &str, book: &[u8], game: Game) {
        self.store(name, book, game);
        let kept = self.bytes.clone();
        damage(&mut self.random, &mut self.bytes);
        self.load(name, book, None, game);
        self.bytes = kept;
    }

    /// Whether all calls are answered alike, and each number often enough.
    pub fn is_right(&self) -> bool {
        let stores_right = self.stores.is_right(&[0, 1, 2, 3, 4, 5, 6, 7, 9, 14]);
        let loads_right = self.loads.is_right(&[0, 1, 2, 3, 4, 5, 6, 7, 9, 13]);
        stores_right && loads_right
    }
}
