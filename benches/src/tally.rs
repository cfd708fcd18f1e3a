//! What came of holding calls of a kind to the plain ones.

const SHOWN: usize = 10;

/// Bytes or numbers kept behind a buffer that is lent, to see that they stay as they are.
pub const BEHIND: usize = 4;

/// How often each number was answered, and how many answers were different.
pub struct Tally {
    calls: &'static str,
    numbers: [usize; 15],
    differ: usize,
}

impl Tally {
    pub fn new(calls: &'static str) -> Tally {
        Tally {
            calls,
            numbers: [0; 15],
            differ: 0,
        }
    }

    /// Counts a call that both sides answered alike and rightly, or did not.
    pub fn count(&mut self, number: u32, is_right: bool, told: impl Fn() -> String) {
        self.numbers[number as usize] += 1;
        if !is_right {
            self.differ += 1;
            if self.differ <= SHOWN {
                println!("{}: {}", self.calls, told());
            }
        }
    }

    /// Whether all answers are right, and each of these numbers was answered often enough.
    pub fn is_right(&self, told: &[usize]) -> bool {
        let Tally { calls, differ, .. } = self;
        let total: usize = self.numbers.iter().sum();
        println!("compared: {total} {calls}");
        println!("answers 0 to 14: {:?}", self.numbers);
        println!("different: {differ} of {total}");
        let seen = told.iter().all(|&number| self.numbers[number] >= 100);
        if !seen {
            println!("some number was answered fewer than 100 times");
        }
        *differ == 0 && seen
    }
}
