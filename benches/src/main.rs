//! Holds the library to a plain Rust version of its calls on many books and plays, then times both; with the word `compare` it only
//! compares.

mod books;
mod compare_books;
mod compare_kept;
mod compare_plays;
mod compare_stores;
mod game;
mod library;
mod plain;
mod random;
mod random_books;
mod random_plays;
mod side_by_side;
mod steps;
mod tally;
mod time_kept;
mod timed_books;
mod timing;
mod verdict;

use std::process::ExitCode;

fn main() -> ExitCode {
    let books_agree = compare_books::compare_books();
    let plays_agree = compare_plays::compare_plays();
    if !(books_agree && plays_agree) {
        println!("FAILED");
        return ExitCode::FAILURE;
    }
    if std::env::args().nth(1).as_deref() != Some("compare") {
        timing::time_all();
    }
    ExitCode::SUCCESS
}
