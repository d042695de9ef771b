//! Shared by the tests: what a book is refused with, and what it prints.
#![allow(dead_code)]

use second::book::{read_book, Book, Refusal};
use second::listing::settle;
use second::sweep::Trial;
use second::write::to_bytes;

/// The refusal a book meets, with its place and t; None if it is settled.
pub fn refused(bytes: &[u8]) -> Option<Refusal> {
    read_book(bytes).err()
}

/// Its number alone.
pub fn refusal(bytes: &[u8]) -> Option<u8> {
    refused(bytes).map(|refusal| refusal.number)
}

/// A refusal by its number, its place and its t.
pub fn at(number: u8, place: usize, t: usize) -> Option<Refusal> {
    Some(Refusal { number, place, t })
}

pub fn printed(book: &Book) -> String {
    settle(&to_bytes(book))
}

pub fn holds(trials: &[Trial]) {
    for trial in trials {
        assert_eq!(refused(&trial.bytes), trial.refusal, "{}", trial.name);
    }
}
