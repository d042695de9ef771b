//! What the two programs `sheet` are held to (request R-12): drawn sheets, the same written in odd ways, books with
//! a requirement's number, and texts at every edge of what a whole number is. A seed and a number name one.

use crate::book::{read_book, Book};
use crate::chance::Chance;
use crate::damage::damage;
use crate::make::{make, CLASSES, UNEQUAL};
use crate::quantities::POWER_LIMIT;
use crate::sheet::SHEET_LIMIT;
use crate::sheet_script::{draw_factors, line_of, sheet};
use crate::sheet_text::{members_of, of_book, of_text, performances_of};
use crate::worked::listing_book;
use crate::write::to_bytes;

/// A book's bytes, and the number of a requirement that is asked for.
#[derive(Clone, Debug)]
pub struct OfBook {
    pub bytes: Vec<u8>,
    pub requirement: i128,
}

/// One run of `sheet`: how it is called, what it reads, and its book where it has one.
#[derive(Clone, Debug)]
pub struct SheetTrial {
    pub name: String,
    pub text: Vec<u8>,
    pub book: Option<OfBook>,
}

impl SheetTrial {
    /// What the second program prints.
    pub fn printed(&self) -> String {
        match &self.book {
            None => of_text(&self.text),
            Some(book) => of_book(&book.bytes, book.requirement, &self.text),
        }
    }
}

fn chance_of(seed: u64, nth: u64) -> Chance {
    Chance::new(seed.wrapping_mul(0x1_0000_0001).wrapping_add(nth))
}

/// A drawn sheet, as the script has it.
pub fn plain_sheet(seed: u64, nth: u64) -> SheetTrial {
    let (kind, sheet) = sheet(seed, nth);
    SheetTrial { name: format!("{seed}-{nth}-{kind}"), text: sheet.text().into_bytes(), book: None }
}

/// Words that are no whole numbers within i64.
pub const NO_NUMBERS: [&str; 32] = [
    "x",
    "-",
    "+",
    "--1",
    "-+1",
    "+1",
    "+0",
    "1-",
    "1-1",
    "1+1",
    "1.0",
    "1.",
    ".5",
    "1,1",
    "1,000,000,000",
    "1_000",
    "1e9",
    "0x1",
    "1a",
    "a1",
    "0-",
    "\"1\"",
    "\u{2212}1",
    "\u{661}",
    "1\u{a0}1",
    "\0",
    "1\0",
    "9223372036854775808",
    "-9223372036854775809",
    "18446744073709551617",
    "-36893488147419103233",
    "340282366920938463463374607431768211457",
];

fn draw_no_number(chance: &mut Chance) -> Vec<u8> {
    let past = i128::from(i64::MAX) + 1 + chance.any_size(1 << 100);
    match chance.place(4) {
        0 => past.to_string().into_bytes(),
        1 => (-past - 1).to_string().into_bytes(),
        _ => chance.pick(&NO_NUMBERS).as_bytes().to_vec(),
    }
}

/// A number, with leading zeros now and then, and a minus before 0.
pub(crate) fn word_of(chance: &mut Chance, number: i128) -> String {
    let minus = number < 0 || number == 0 && chance.one_in(2);
    let zeros = if chance.one_in(4) { chance.pick(&[1, 2, 18, 40]) } else { 0 };
    format!("{}{}{}", if minus { "-" } else { "" }, "0".repeat(zeros), number.abs())
}

fn blanks(chance: &mut Chance, least: i128) -> Vec<u8> {
    (0..chance.between(least, 3)).map(|_| chance.pick(b"  \t")).collect()
}

/// Numbers in one line: several blanks, blanks at the ends, leading zeros; one word is no number if so said.
fn odd_line(chance: &mut Chance, numbers: &[i128], with_no_number: bool) -> Vec<u8> {
    let mut words: Vec<Vec<u8>> =
        numbers.iter().map(|&number| word_of(chance, number).into_bytes()).collect();
    if with_no_number {
        let place = chance.place(words.len() + 1);
        let word = draw_no_number(chance);
        words.insert(place, word);
        if chance.one_in(2) && words.len() > 1 {
            words.remove(if place == 0 { 1 } else { place - 1 });
        }
    }
    let mut line = blanks(chance, 0);
    for (place, word) in words.iter().enumerate() {
        if place > 0 {
            line.extend(blanks(chance, 1));
        }
        line.extend(word);
    }
    line.extend(blanks(chance, 0));
    line
}

/// A line feed, mostly; or the text ends without one.
fn line_end(chance: &mut Chance) -> &'static [u8] {
    chance.pick(&[&b"\n"[..], b"\n", b""])
}

/// A drawn sheet in odd writing.
pub fn odd_sheet(seed: u64, nth: u64) -> SheetTrial {
    let (kind, sheet) = sheet(seed, nth);
    let chance = &mut chance_of(!seed, nth);
    let with_no_number = chance.one_in(6);
    let mut text = odd_line(chance, &sheet.performances, with_no_number);
    if chance.one_in(12) {
        // No second line.
        text.extend(line_end(chance));
    } else {
        text.push(b'\n');
        let with_no_number = chance.one_in(5);
        text.extend(odd_line(chance, &sheet.factors, with_no_number));
        text.extend(line_end(chance));
    }
    SheetTrial { name: format!("{seed}-{nth}-odd-{kind}"), text, book: None }
}

/// A number that the book's requirements do not have, next to one that they have or far from all.
fn unknown_requirement(chance: &mut Chance, book: &Book) -> i128 {
    let known: Vec<i128> = book.requirements.iter().map(|requirement| requirement.number).collect();
    loop {
        let near = chance.pick(&known) + chance.pick(&[-1, 1]);
        let round = chance.pick(&known) + 65_536;
        let any = chance.between(0, 65_535);
        let number = chance.pick(&[near, round, any, 0, 65_535]);
        if number >= 0 && !known.contains(&number) {
            return number;
        }
    }
}

/// The factors as the line that `sheet` reads: mostly plain, sometimes too few, too many, or in odd writing.
fn factors_text(chance: &mut Chance, mut factors: Vec<i128>) -> (&'static str, Vec<u8>) {
    let plain = |factors: &[i128]| format!("{}\n", line_of(factors)).into_bytes();
    match chance.place(16) {
        0 => {
            factors.pop();
            ("-one-short", plain(&factors))
        }
        1 => {
            factors.push(0);
            ("-one-more", plain(&factors))
        }
        2 => {
            factors.resize(SHEET_LIMIT + 1, 0);
            ("-514", plain(&factors))
        }
        3 => ("-no-number", odd_line(chance, &factors, true)),
        4 | 5 => {
            let line = odd_line(chance, &factors, false);
            ("-odd", [&line, line_end(chance)].concat())
        }
        _ => ("", plain(&factors)),
    }
}

/// A made book, every fourth damaged, with a number that is one of its requirements' or none, and factors that are
/// our own or altered.
pub fn sheet_of_a_book(seed: u64, nth: u64) -> SheetTrial {
    let chance = &mut chance_of(seed, nth);
    let class = if nth.is_multiple_of(2) {
        chance.pick(&UNEQUAL)
    } else {
        CLASSES[(nth / 2) as usize % CLASSES.len()].0
    };
    let roster = if chance.one_in(16) {
        chance.pick(&[76, 477, 509, 511, 512])
    } else {
        chance.pick(&[0, 1, 2, 3, 5, 7, 13])
    };
    let made = make(chance.draw(), class, Some(roster)).expect("a class of the list");
    let damaged = nth % 4 == 3;
    let whole = to_bytes(&made);
    let bytes = if damaged { damage(chance.draw(), &whole) } else { whole.clone() };
    // A book that is refused is asked about what it was before.
    let book = read_book(&bytes).unwrap_or(made);
    let unknown = chance.one_in(10);
    let requirement = if unknown {
        unknown_requirement(chance, &book)
    } else {
        book.requirements[chance.place(book.requirements.len())].number
    };
    let performances = members_of(&to_bytes(&book), requirement)
        .expect("a book that is read")
        .map_or(vec![], |members| performances_of(&members));
    let (kind, factors) = draw_factors(chance, &performances);
    let (written, text) = factors_text(chance, factors);
    let state = if damaged { "-damaged" } else { "" };
    SheetTrial {
        name: format!("{seed}-{nth}-{class}-{roster}{state}-requirement-{requirement}-{kind}{written}"),
        text,
        book: Some(OfBook { bytes, requirement }),
    }
}

/// Texts in the two-line form, each with what is printed of it.
fn texts() -> Vec<(String, Vec<u8>, &'static str)> {
    let mut all: Vec<(String, Vec<u8>, &str)> = Vec::new();
    let mut add = |name: &str, text: &[u8], printed| all.push((name.to_string(), text.to_vec(), printed));
    add("nothing", b"", "possible");
    add("a-line-feed", b"\n", "possible");
    add("two-line-feeds", b"\n\n", "possible");
    add("blanks-alone", b" \t \n\t\t \n", "possible");
    add("blanks-alone-without-a-line-feed", b" \n ", "possible");
    add("no-second-line", b"1\n", "refused 12 0 0");
    add("no-second-line-nor-line-feed", b"1", "refused 12 0 0");
    add("no-second-line-for-0", b"0", "refused 12 0 0");
    add("no-first-line", b"\n1000000000\n", "refused 12 0 0");
    add("no-line-feed-at-the-end", b"1\n1000000000", "possible");
    add("one", b"1\n1000000000\n", "possible");
    add("minus-one", b"-1\n-1000000000\n", "possible");
    add("tabs", b"\t1\t-1\t\n\t1000000000\t-1000000000\t\n", "possible");
    add("several-blanks", b"  1   -1 \t \n \t1000000000 \t\t -1000000000  \n", "possible");
    add("leading-zeros", b"01 -001\n0001000000000 -01000000000\n", "possible");
    add("zeros", b"0 -0 00 -00\n-000 00 -0 0\n", "possible");
    add("many-zeros", format!("{0}1\n{0}1000000000\n", "0".repeat(400)).as_bytes(), "possible");
    add("many-zeros-and-a-minus", format!("-{0}1\n-{0}1000000000\n", "0".repeat(41)).as_bytes(), "possible");
    add("an-empty-line-between", b"1\n\n1000000000\n", "refused 12 0 0");
    add("a-minus-apart", b"- 1\n-1000000000\n", "text 1");
    add("both-lines-wrong", b"x\nx\n", "text 1");
    add("a-wrong-word-without-a-second-line", b"x", "text 1");
    add("a-wrong-word-and-other-lengths", b"1 2 3\nx\n", "text 2");
    add("a-byte-that-is-no-letter", b"1\xff\n1\n", "text 1");
    add("the-greatest", b"9223372036854775807\n1000000000\n", "refused 5 0 0");
    add("the-least", b"-9223372036854775808\n-1000000000\n", "refused 5 0 0");
    add("the-greatest-factor", b"1\n9223372036854775807\n", "wrong member 1");
    add("the-least-factor", b"0 1\n0 -9223372036854775808\n", "wrong member 2");
    add("positive-side", b"1 1 1\n333333333 333333333 333333333\n", "wrong side positive");
    add("negative-side", b"-1 -1 -1\n-333333333 -333333334 -333333334\n", "wrong side negative");
    let long = |words: usize| "0 ".repeat(words);
    add("513", format!("{}\n{}\n", long(513), long(513)).as_bytes(), "possible");
    add("514", format!("{}\n{}\n", long(514), long(514)).as_bytes(), "refused 5 0 0");
    add("514-performances", format!("{}\n{}\n", long(514), long(513)).as_bytes(), "refused 12 0 0");
    add("514-factors", format!("{}\n{}\n", long(513), long(514)).as_bytes(), "refused 5 0 0");
    add("3000", format!("{}\n{}\n", long(3_000), long(3_000)).as_bytes(), "refused 5 0 0");
    add("3000-performances", format!("{}\n0\n", long(3_000)).as_bytes(), "refused 12 0 0");
    add("3000-factors", format!("\n{}\n", long(3_000)).as_bytes(), "refused 5 0 0");
    add("a-wrong-word-past-the-limit", b"9223372036854775807\nx\n", "text 2");
    for (place, word) in NO_NUMBERS.iter().enumerate() {
        add(&format!("no-number-{place}"), format!("{word}\n0\n").as_bytes(), "text 1");
        add(&format!("no-number-{place}-after-another"), format!("7 {word}\n0 0\n").as_bytes(), "text 1");
        add(&format!("no-factor-{place}"), format!("0\n{word}\n").as_bytes(), "text 2");
    }
    // Where the request is open, see README.md.
    add("open-a-third-line", b"1\n1000000000\nx\n", "possible");
    add("open-carriage-returns", b"1\r\n1000000000\r\n", "possible");
    add("open-a-carriage-return", b"1\n1000000000\r\n", "possible");
    add("open-a-vertical-tab", b"1\x0b1\n0 0\n", "text 1");
    add("open-a-form-feed", b"0 0\n0\x0c0\n", "text 2");
    add("open-no-number-after-513", format!("{}x\n0\n", long(513)).as_bytes(), "text 1");
    add("open-no-number-after-3000", format!("{}x\n0\n", long(3_000)).as_bytes(), "text 1");
    add("open-no-factor-after-513", format!("0\n{}x\n", long(513)).as_bytes(), "text 2");
    add("open-no-factor-after-3000", format!("0\n{}x\n", long(3_000)).as_bytes(), "text 2");
    all
}

/// Texts for document 01's listing, each with the requirement's number and what is printed.
const TEXTS_OF_THE_LISTING: [(&str, i128, &[u8], &str); 19] = [
    ("own", 1, b"1000000000 -300000000 -700000000\n", "possible"),
    ("no-line-feed", 1, b"1000000000 -300000000 -700000000", "possible"),
    ("tabs", 1, b"\t1000000000\t-300000000 \t -700000000 ", "possible"),
    ("open-second-line", 1, b"1000000000 -300000000 -700000000\nx\n", "possible"),
    ("first-unit", 1, b"999999999 -300000000 -700000000\n", "wrong member 1 unit 1"),
    ("second-unit", 1, b"1000000000 300000000 -700000000\n", "wrong member 2 unit 2"),
    ("residual", 1, b"1000000000 -300000000 -700000001\n", "wrong member 3 residual"),
    ("nothing", 1, b"", "refused 12 0 0"),
    ("a-line-feed", 1, b"\n", "refused 12 0 0"),
    ("two-factors", 1, b"1000000000 -300000000\n", "refused 12 0 0"),
    ("four-factors", 1, b"1000000000 -300000000 -700000000 0\n", "refused 12 0 0"),
    ("in-the-second-line", 1, b"\n1000000000 -300000000 -700000000\n", "refused 12 0 0"),
    ("no-number", 1, b"1000000000 -300000000 x\n", "text 1"),
    ("past-64-bits", 1, b"1000000000 -300000000 9223372036854775808\n", "text 1"),
    ("the-least-factor", 1, b"1000000000 -300000000 -9223372036854775808\n", "wrong member 3 residual"),
    ("unknown", 9, b"1000000000 -300000000 -700000000\n", "no requirement 9"),
    ("open-unknown-and-no-number", 9, b"x\n", "no requirement 9"),
    ("number-0", 0, b"", "no requirement 0"),
    ("open-number-65537", 65_537, b"1000000000 -300000000 -700000000\n", "no requirement 65537"),
];

/// The trials whose answer is known, with that answer.
pub fn known_trials() -> Vec<(SheetTrial, String)> {
    let mut all = Vec::new();
    for (name, text, printed) in texts() {
        all.push((SheetTrial { name: format!("text-{name}"), text, book: None }, format!("{printed}\n")));
    }
    let listing = to_bytes(&listing_book());
    let mut of_listing = |name: &str, bytes: &[u8], requirement, text: &[u8], printed: &str| {
        let book = Some(OfBook { bytes: bytes.to_vec(), requirement });
        let trial = SheetTrial { name: format!("listing-{name}"), text: text.to_vec(), book };
        all.push((trial, format!("{printed}\n")));
    };
    for (name, requirement, text, printed) in TEXTS_OF_THE_LISTING {
        of_listing(name, &listing, requirement, text, printed);
    }
    let long = line_of(&[0; SHEET_LIMIT + 1]).into_bytes();
    of_listing("514", &listing, 1, &long, "refused 5 0 0");
    of_listing("513", &listing, 1, &long[2..], "refused 12 0 0");
    let short = &listing[..listing.len() - 1];
    of_listing("cut", short, 1, b"1000000000 -300000000 -700000000\n", "refused 1 1 0");
    of_listing("open-cut-and-no-number", short, 1, b"x\n", "refused 1 1 0");
    of_listing("cut-and-unknown", short, 9, b"", "refused 1 1 0");
    of_listing("a-byte-behind", &[&listing[..], &[0]].concat(), 1, b"", "refused 4 1 0");
    of_listing("no-bytes", b"", 1, b"", "refused 1 0 0");
    let mut wrong = listing_book();
    wrong.units[1].readings[74] = POWER_LIMIT + 1;
    of_listing("a-reading", &to_bytes(&wrong), 1, b"x\n", "refused 84 2 75");
    wrong.frequencies[4].frequencies[1] = 0;
    of_listing("a-point", &to_bytes(&wrong), 9, b"", "refused 74 5 2");
    all
}
