//! What the program `watch` is held to (request R-13): runs of one to four books, whole and damaged, of every class, with the
//! keys that go through them; and odd runs. A seed and a number name a book, and a run by its first book.

use crate::chance::Chance;
use crate::damage::damage;
use crate::make::{make, CLASSES};
use crate::watch::pressed;
use crate::write::to_bytes;

/// Books for `watch`, its keys, and how to make them again.
#[derive(Clone, Debug, PartialEq, Eq)]
pub struct Run {
    pub name: String,
    pub books: Vec<Vec<u8>>,
    pub live: bool,
    pub keys: Vec<u8>,
}

const RUN_LIMIT: u64 = 4;
/// One book in so many is damaged; the classes are no multiple of it, so that each has damaged books.
const DAMAGED: u64 = 5;
const ROUND: [usize; 16] = [0, 1, 5, 7, 13, 76, 1, 5, 7, 13, 0, 5, 477, 509, 511, 512];

/// A roster of a size that the makers like, or of any other; most are small.
fn draw_roster(chance: &mut Chance) -> usize {
    let small = chance.between(2, 24) as usize;
    let middle = chance.between(25, 130) as usize;
    let large = chance.between(131, 512) as usize;
    let round = chance.pick(&ROUND);
    chance.pick(&[round, round, round, small, small, small, small, middle, middle, large])
}

fn book(seed: u64, nth: u64) -> Vec<u8> {
    let mut chance = Chance::new(seed.wrapping_mul(0x1_0000_0001).wrapping_add(nth).wrapping_add(7 << 56));
    let (class, _) = CLASSES[nth as usize % CLASSES.len()];
    let roster = draw_roster(&mut chance);
    let bytes = to_bytes(&make(chance.draw(), class, Some(roster)).expect("a class of the list"));
    if nth % DAMAGED == DAMAGED - 1 {
        return damage(chance.draw(), &bytes);
    }
    bytes
}

/// The books from this one on; now and then one is sent again.
fn books(chance: &mut Chance, seed: u64, first: u64, count: u64) -> Vec<Vec<u8>> {
    let mut books: Vec<Vec<u8>> = Vec::new();
    for nth in first..first + count {
        match books.last() {
            Some(last) if chance.one_in(8) => books.push(last.clone()),
            _ => books.push(book(seed, nth)),
        }
    }
    books
}

/// Keys of one mood, the more frequent ones more often.
const MOODS: [&[u8]; 6] = [
    b"nphrR",
    b"nnnnnppppphrR",
    b"nnnnnnnnnnnnnnnnnnnnnnnp",
    b"ppppppppppnn",
    b"rrrrrrRRnnnp",
    b"nnnnnnnnnnnnnnnnnpprRh",
];
/// Of so many bytes one is no key.
const OTHERS: i128 = 15;

/// A byte that is no key; a plain character where a terminal must make nothing of it.
fn no_key(chance: &mut Chance, plain: bool) -> u8 {
    loop {
        let byte = if plain { chance.between(32, 126) as u8 } else { chance.draw() as u8 };
        if pressed(byte).is_none() {
            return byte;
        }
    }
}

/// So many keys without `b` and `q`, in runs of one mood.
fn page_keys(chance: &mut Chance, count: usize, plain: bool) -> Vec<u8> {
    let mut keys = Vec::new();
    while keys.len() < count {
        let mood = chance.pick(&MOODS);
        let longest = chance.pick(&[8, 30, 120, 600]);
        for _ in 0..chance.between(1, longest) {
            let key = chance.pick(mood);
            keys.push(if chance.one_in(OTHERS) { no_key(chance, plain) } else { key });
        }
    }
    keys.truncate(count);
    keys
}

/// `b` in the place of a key: often enough to reach the last of so many books; sometimes far more often.
fn put_book_keys(chance: &mut Chance, keys: &mut [u8], books: usize) {
    if keys.is_empty() {
        return;
    }
    let usual = books - 1 + chance.place(3);
    let often = keys.len() / 8;
    for _ in 0..chance.pick(&[usual, usual, usual, usual, usual, usual, often]) {
        let place = chance.place(keys.len());
        keys[place] = b'b';
    }
}

/// So many keys for a panel of so many books, none of them `q`.
fn draw_keys(chance: &mut Chance, count: usize, books: usize, plain: bool) -> Vec<u8> {
    let mut keys = page_keys(chance, count, plain);
    put_book_keys(chance, &mut keys, books);
    keys
}

/// The end of the keys: none, `q`, `q` and keys behind it; now and then `q` in their midst.
fn put_end(chance: &mut Chance, keys: &mut Vec<u8>) {
    match chance.place(12) {
        0..3 => {}
        3 => {
            let place = chance.place(keys.len() + 1);
            keys.insert(place, b'q');
        }
        4..7 => {
            keys.push(b'q');
            let behind = chance.place(30);
            keys.extend(draw_keys(chance, behind, 1, false));
        }
        _ => keys.push(b'q'),
    }
}

/// The run that begins with this book, of at most so many, with so many keys a book.
pub fn run(seed: u64, first: u64, most: u64, keys: usize) -> Run {
    let mut chance = Chance::new(seed.wrapping_mul(0x1_0000_0001).wrapping_add(first).wrapping_add(8 << 56));
    let count = (1 + chance.draw() % RUN_LIMIT).min(most);
    let books = books(&mut chance, seed, first, count);
    let live = chance.one_in(6);
    let mut keys = draw_keys(&mut chance, keys * books.len(), books.len(), false);
    put_end(&mut chance, &mut keys);
    Run { name: format!("{seed}-{first}-of-{count}"), books, live, keys }
}

/// Keys for a panel by hand: plain characters, without `q`.
pub fn plain_keys(seed: u64, count: usize) -> Vec<u8> {
    let mut chance = Chance::new(seed.wrapping_add(9 << 56));
    let books = 2 + count / 100;
    draw_keys(&mut chance, count, books, true)
}

/// What an odd run's argument is.
#[derive(Clone, Copy, Debug, PartialEq, Eq)]
pub enum Word {
    Live,
    Whole,
    Refused,
    Empty,
    Missing,
    Folder,
}

/// Arguments that a run of books does not have, with keys for them.
pub fn odd_runs() -> Vec<(Vec<Word>, Vec<u8>)> {
    use Word::*;
    let some = b"nnpxhrRbnRrbpbnq".to_vec();
    let no_end = b"\nnr bnb".to_vec();
    // Every byte but `q`, twice over, then `q` and what is behind it.
    let bytes = (0..=255).filter(|&byte| byte != b'q');
    let every: Vec<u8> = bytes.clone().chain(bytes).chain(*b"qnnb").collect();
    let words = [
        vec![],
        vec![Live],
        vec![Missing],
        vec![Empty],
        vec![Folder],
        vec![Refused],
        vec![Whole],
        vec![Live, Missing],
        vec![Live, Empty],
        vec![Live, Whole],
        vec![Live, Live],
        vec![Whole, Live],
        vec![Live, Live, Whole],
        vec![Missing, Whole],
        vec![Whole, Missing],
        vec![Empty, Whole, Folder, Refused, Whole],
        vec![Whole, Whole],
        vec![Refused, Refused, Empty],
    ];
    let keys = [Vec::new(), b"q".to_vec(), some, no_end, every];
    let of = |words: &Vec<Word>| keys.clone().map(|keys| (words.clone(), keys));
    words.iter().flat_map(of).collect()
}
