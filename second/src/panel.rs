//! The panel (request R-13): a requirement's pages on four lines of 20 characters, a refusal's phrase, and
//! the page record that the keys move.

use crate::cents::Settled;
use crate::listing::name_in_words;
use crate::members::Name;
use crate::performance::Standing;
use crate::quantities::Direction;

pub const WIDTH: usize = 20;
/// Four lines of 20.
pub const TEXT: usize = 80;
/// The places behind a label.
pub const PLACES: usize = 16;

/// A number at the right end of its 16 places; one of more characters, its sign included, is 16 hashes.
pub fn figure(number: i128) -> String {
    let characters = number.to_string();
    if characters.len() > PLACES {
        "#".repeat(PLACES)
    } else {
        format!("{characters:>PLACES$}")
    }
}

/// Lines one under the other, each filled to 20 with spaces, and empty lines up to the fourth.
fn filled(lines: &[String]) -> String {
    let all: String = lines.iter().map(|line| format!("{line:<WIDTH$}")).collect();
    format!("{all:<TEXT$}")
}

/// Line one, and a labelled figure on each of the others.
fn page(line_one: String, labels: [&str; 3], figures: [i128; 3]) -> String {
    let labelled = |place: usize| format!("{}{}", labels[place], figure(figures[place]));
    filled(&[line_one, labelled(0), labelled(1), labelled(2)])
}

/// RCR and pool as the listing has them, the cost as the book has it.
pub fn first_page(number: i128, direction: Direction, figures: [i128; 3]) -> String {
    page(format!("req {number} {}", direction.word()), ["RCR ", "POOL", "COST"], figures)
}

/// Payment, used and unused; of a default the reason has no place.
pub fn member_page(name: Name, live: bool, figures: [i128; 3]) -> String {
    let name = name_in_words(name);
    let standing = if live { "live" } else { "default" };
    let rest = WIDTH - name.len();
    page(format!("{name}{standing:>rest$}"), ["PAY ", "USED", "IDLE"], figures)
}

pub fn phrase_page(number: u32) -> String {
    filled(&[phrase(number).to_string()])
}

/// What a refusal number says; one that no refusal has is unknown.
pub fn phrase(number: u32) -> &'static str {
    match number {
        1 => "ends too early",
        2 => "not an interval book",
        3 => "wrong contents table",
        4 => "bytes after the end",
        5 => "count out of limits",
        6 => "wrong settings",
        9 => "unit out of order",
        10 => "wrong requirement",
        11 => "call out of turn",
        12 => "buffer too short",
        14 => "default too low",
        15 => "year past 9999",
        16 => "wrong group",
        17 => "week out of limits",
        18 => "wrong report row",
        71..=74 => "wrong frequency data",
        81..=84 => "wrong unit data",
        _ => "unknown",
    }
}

/// All pages of a settled requirement that costs so much: the first one, and one a member.
pub fn pages(settled: &Settled, cost: i128) -> Vec<String> {
    let first = first_page(settled.number, settled.direction, [settled.rcr, settled.pool, cost]);
    let members = settled.lines.iter().map(|line| {
        let live = line.member.standing == Standing::Live;
        member_page(line.member.name, live, [line.payment, line.used, line.unused])
    });
    std::iter::once(first).chain(members).collect()
}

/// What the panel keeps: which book, which requirement, and which page of it, 0 the first.
#[derive(Clone, Copy, Debug, PartialEq, Eq)]
pub struct Page {
    pub book: i128,
    pub requirement: i128,
    pub page: i128,
}

/// What a key does with the page; `Show` is no key at all.
#[derive(Clone, Copy, Debug, PartialEq, Eq)]
pub enum Key {
    Show,
    Next,
    Previous,
    Home,
}

impl Key {
    pub const ALL: [Key; 4] = [Key::Show, Key::Next, Key::Previous, Key::Home];
}

/// The page on which the key finds the record: home in another book or requirement, and never past the last.
fn found(record: Page, book: i128, requirement: i128, members: i128) -> i128 {
    if (record.book, record.requirement) == (book, requirement) {
        record.page.min(members)
    } else {
        0
    }
}

/// The record after a key, in this book and at this requirement of so many members.
pub fn step(record: Page, key: Key, book: i128, requirement: i128, members: i128) -> Page {
    let from = found(record, book, requirement, members);
    let page = match key {
        Key::Show => from,
        Key::Next => (from + 1).min(members),
        Key::Previous => (from - 1).max(0),
        Key::Home => 0,
    };
    Page { book, requirement, page }
}
