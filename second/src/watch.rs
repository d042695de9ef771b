//! The program `watch` (request R-13): books on the panel, and the keys that go through them.

use std::cell::OnceCell;
use std::collections::BTreeSet;
use std::ffi::OsString;
use std::fs;
use std::io;

use crate::book::{read_book, Book, Refusal};
use crate::cents::settle_requirement;
use crate::members::Name;
use crate::panel::*;
use crate::performance::{roster_views, RegionView, Standing};
use crate::roster::{grouped, RosterMember};

pub const NO_BOOK: &str = "watch: name the books, after `live` for a terminal";
/// What clears a terminal and puts its cursor at the top.
pub const CLEARING: &[u8; 7] = b"\x1b[2J\x1b[H";

/// What a screen shows.
#[derive(Clone, Copy, Debug, PartialEq, Eq)]
pub enum Sort {
    First,
    Member { live: bool, residual: bool, group: bool },
    Phrase(&'static str),
}

/// The 80 bytes of the panel, and what they show.
#[derive(Clone, Debug, PartialEq, Eq)]
pub struct Screen {
    pub text: String,
    pub sort: Sort,
}

/// What is printed of a screen: its four lines, each with its line feed.
pub fn printed(screen: &Screen, live: bool) -> Vec<u8> {
    let mut bytes = if live { CLEARING.to_vec() } else { Vec::new() };
    for line in screen.text.as_bytes().chunks(WIDTH) {
        bytes.extend(line);
        bytes.push(b'\n');
    }
    bytes
}

/// A book that is taken; a requirement is settled when it is shown first.
struct Taken {
    book: Book,
    roster: Vec<RosterMember>,
    views: Vec<RegionView>,
    /// The numbers that groups go by.
    groups: BTreeSet<i128>,
    screens: Vec<OnceCell<Vec<Screen>>>,
}

impl Taken {
    fn of(book: Book) -> Taken {
        let roster = grouped(&book.units);
        let views = roster_views(&book, &roster);
        let in_group = book.units.iter().filter(|unit| unit.group != 0);
        let groups = in_group.map(|unit| unit.number).collect();
        let screens = book.requirements.iter().map(|_| OnceCell::new()).collect();
        Taken { book, roster, views, groups, screens }
    }

    fn draw(&self, requirement: usize) -> Vec<Screen> {
        let of = &self.book.requirements[requirement];
        let settled =
            settle_requirement(of, &self.book, &self.roster, &self.views).expect("a book that was read");
        let members = settled.lines.iter().map(|line| Sort::Member {
            live: line.member.standing == Standing::Live,
            residual: line.member.name == Name::Residual,
            group: matches!(line.member.name, Name::Unit(number) if self.groups.contains(&number)),
        });
        let sorts = std::iter::once(Sort::First).chain(members);
        pages(&settled, of.cost).into_iter().zip(sorts).map(|(text, sort)| Screen { text, sort }).collect()
    }

    fn screens(&self, requirement: usize) -> &[Screen] {
        self.screens[requirement].get_or_init(|| self.draw(requirement))
    }
}

/// A named book: taken, or the one screen of its refusal.
enum Shown {
    Taken(Box<Taken>),
    Refused(Screen),
}

impl Shown {
    fn of(bytes: &[u8]) -> Shown {
        match read_book(bytes) {
            Ok(book) => Shown::Taken(Box::new(Taken::of(book))),
            Err(refusal) => Shown::Refused(refused_screen(refusal)),
        }
    }

    fn requirements(&self) -> usize {
        match self {
            Shown::Taken(taken) => taken.book.requirements.len(),
            Shown::Refused(_) => 0,
        }
    }
}

fn refused_screen(refusal: Refusal) -> Screen {
    let number = u32::from(refusal.number);
    Screen { text: phrase_page(number), sort: Sort::Phrase(phrase(number)) }
}

/// What a byte of the input asks for.
#[derive(Clone, Copy, Debug, PartialEq, Eq)]
pub enum Pressed {
    Page(Key),
    NextRequirement,
    PreviousRequirement,
    NextBook,
    End,
}

pub fn pressed(byte: u8) -> Option<Pressed> {
    match byte {
        b'n' => Some(Pressed::Page(Key::Next)),
        b'p' => Some(Pressed::Page(Key::Previous)),
        b'h' => Some(Pressed::Page(Key::Home)),
        b'r' => Some(Pressed::NextRequirement),
        b'R' => Some(Pressed::PreviousRequirement),
        b'b' => Some(Pressed::NextBook),
        b'q' => Some(Pressed::End),
        _ => None,
    }
}

/// The named books, and where among them the panel stands.
struct Watch {
    books: Vec<OnceCell<Shown>>,
    names: Vec<OsString>,
    book: usize,
    requirement: usize,
    record: Page,
}

impl Watch {
    fn of(names: &[OsString]) -> Watch {
        let books = names.iter().map(|_| OnceCell::new()).collect();
        let record = Page { book: 0, requirement: 0, page: 0 };
        Watch { books, names: names.to_vec(), book: 0, requirement: 0, record }
    }

    /// A file that cannot be read is as an empty book.
    fn shown(&self) -> &Shown {
        let read = || Shown::of(&fs::read(&self.names[self.book]).unwrap_or_default());
        self.books[self.book].get_or_init(read)
    }

    /// The other requirement or book is gone to where there is one; which key is then left for the page.
    fn go(&mut self, pressed: Pressed) -> Key {
        match pressed {
            Pressed::Page(key) => return key,
            Pressed::NextRequirement if self.requirement + 1 < self.shown().requirements() => {
                self.requirement += 1;
            }
            Pressed::PreviousRequirement if self.requirement > 0 => self.requirement -= 1,
            Pressed::NextBook if self.book + 1 < self.books.len() => {
                self.book += 1;
                self.requirement = 0;
            }
            _ => {}
        }
        Key::Show
    }

    /// The screen after a key; the page record moves with it.
    fn screen(&mut self, key: Key) -> Screen {
        let (book, record) = (self.book as i128, self.record);
        let (record, screen) = match self.shown() {
            Shown::Refused(screen) => (record, screen.clone()),
            Shown::Taken(taken) => {
                let screens = taken.screens(self.requirement);
                let number = taken.book.requirements[self.requirement].number;
                let record = step(record, key, book, number, screens.len() as i128 - 1);
                (record, screens[record.page as usize].clone())
            }
        };
        self.record = record;
        screen
    }
}

/// One screen for the first page, and one for each key up to `q` or the last. A byte is asked for only when
/// the screen before it is shown.
pub fn watch(
    names: &[OsString],
    bytes: impl Iterator<Item = u8>,
    mut show: impl FnMut(&Screen) -> io::Result<()>,
) -> io::Result<()> {
    let mut watch = Watch::of(names);
    show(&watch.screen(Key::Show))?;
    for key in bytes.filter_map(pressed).take_while(|&key| key != Pressed::End) {
        let key = watch.go(key);
        show(&watch.screen(key))?;
    }
    Ok(())
}

/// The arguments: whether the terminal is cleared, and the books; None where no book is named.
pub fn arguments(words: &[OsString]) -> Option<(bool, &[OsString])> {
    let live = words.first().is_some_and(|word| word == "live");
    let names = &words[usize::from(live)..];
    (!names.is_empty()).then_some((live, names))
}
