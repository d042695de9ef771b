//! What the two programs `read_book` and `write_book` are held to (request R-4): books, whole and damaged in every field,
//! and texts in odd writing, with words changed, dropped and doubled, with numbers past their width, with too many
//! records. A seed and a number name one.

use crate::book::Book;
use crate::book_text::in_text;
use crate::chance::Chance;
use crate::damage::damage;
use crate::sheet_text::whole_number;
use crate::sheet_trials::{word_of, NO_NUMBERS};
use crate::worked::listing_book;
use crate::write::to_bytes;
use crate::writer::*;
use crate::writer_fields::*;
use crate::writer_script::*;

/// Bytes for one of the programs, and how to make them again.
#[derive(Clone, Debug)]
pub struct WriterTrial {
    pub name: String,
    pub bytes: Vec<u8>,
}

fn trial(seed: u64, nth: u64, kind: &str, bytes: Vec<u8>) -> WriterTrial {
    WriterTrial { name: format!("{seed}-{nth}-{kind}"), bytes }
}

/// Other draws than the script's of the same seed.
fn chance_of(seed: u64, nth: u64, sort: u64) -> Chance {
    Chance::new(seed.wrapping_mul(0x1_0000_0001).wrapping_add(nth).wrapping_add(sort << 56))
}

/// A book: of three two are whole and one is damaged anywhere, in its table and length too.
pub fn book_trial(seed: u64, nth: u64) -> WriterTrial {
    let mut chance = chance_of(seed, nth, 1);
    let bytes = to_bytes(&draw_book(&mut chance));
    if nth % 3 == 2 {
        trial(seed, nth, "damaged", damage(chance.draw(), &bytes))
    } else {
        trial(seed, nth, "whole", bytes)
    }
}

/// The book whose values a call of the script has.
pub fn script_book_trial(seed: u64, nth: u64) -> Option<WriterTrial> {
    damaged_book(seed, nth).map(|bytes| trial(seed, nth, "of-a-call", bytes))
}

type Maker = fn(&mut Chance, Width) -> Given;
const WRONG_VALUES: [Maker; 7] =
    [one_field, one_field, several_fields, one_record, wrong_group, wrong_points, a_pair];

/// A book with wrong values in any field, table and length right.
pub fn field_trial(seed: u64, nth: u64) -> WriterTrial {
    let mut chance = chance_of(seed, nth, 2);
    let maker = WRONG_VALUES[nth as usize % WRONG_VALUES.len()];
    trial(seed, nth, "field", lay_out(&maker(&mut chance, Width::Door)))
}

type Words = Vec<Vec<u8>>;

fn words_of(given: &Given) -> Words {
    in_text(given).split_whitespace().map(|word| word.as_bytes().to_vec()).collect()
}

const BETWEEN: [&str; 16] = [
    " ",
    " ",
    " ",
    " ",
    " ",
    "\n",
    "\n",
    "\t",
    "  ",
    " \t ",
    "\r\n",
    "\n\n",
    " # a word\n",
    "#unit 1\n",
    "\t#\r\n",
    "\r",
];
const AT_THE_ENDS: [&str; 8] = ["", "", "\n", " ", "# 7\n", "#", "\t# - 5 unit", "\n\n \r\n"];

/// The words with one blank between two, or on lines of their own, or in odd writing: any blanks, comments, zeros.
fn written(chance: &mut Chance, words: &[Vec<u8>]) -> Vec<u8> {
    match chance.place(8) {
        0 => words.join(&b' '),
        1 => [words.join(&b'\n'), b"\n".to_vec()].concat(),
        _ => in_odd_writing(chance, words),
    }
}

fn in_odd_writing(chance: &mut Chance, words: &[Vec<u8>]) -> Vec<u8> {
    // A comment at the head ends with its line.
    let mut text = format!("{}\n", chance.pick(&AT_THE_ENDS)).into_bytes();
    if chance.one_in(2) {
        text.clear();
    }
    for (place, word) in words.iter().enumerate() {
        if place > 0 {
            text.extend(chance.pick(&BETWEEN).as_bytes());
        }
        match whole_number(word) {
            Some(number) if chance.one_in(4) => text.extend(word_of(chance, number).as_bytes()),
            _ => text.extend(word),
        }
    }
    text.extend(chance.pick(&AT_THE_ENDS).as_bytes());
    text
}

const NAMES: [&str; 4] = ["settings", "region", "unit", "requirement"];
const OTHER_WORDS: [&str; 20] = [
    "settings",
    "region",
    "unit",
    "requirement",
    "units",
    "Unit",
    "un",
    "UNIT",
    "-",
    "-#",
    "#",
    "1#2",
    "0",
    "-1",
    "007",
    "-0",
    "4294967296",
    "9223372036854775807",
    "-9223372036854775808",
    "--",
];

/// A place in the words: of any word, of a name, of a bad point, at an end.
fn draw_word(chance: &mut Chance, words: &[Vec<u8>]) -> usize {
    let is_name = |place: &usize| NAMES.iter().any(|name| name.as_bytes() == words[*place]);
    let names: Vec<usize> = (0..words.len()).filter(is_name).collect();
    let bad: Vec<usize> = (0..words.len()).filter(|&place| words[place] == b"-").collect();
    match chance.place(8) {
        0 | 1 if !names.is_empty() => chance.pick(&names),
        2 if !bad.is_empty() => chance.pick(&bad),
        3 => words.len() - 1,
        _ => chance.place(words.len()),
    }
}

fn word_changed(chance: &mut Chance, words: &mut Words) {
    let place = draw_word(chance, words);
    words[place] = match chance.place(3) {
        0 => chance.pick(&NO_NUMBERS).as_bytes().to_vec(),
        1 => chance.pick(&OTHER_WORDS).as_bytes().to_vec(),
        _ => chance.between(i64::MIN.into(), i64::MAX.into()).to_string().into_bytes(),
    };
}

fn word_dropped(chance: &mut Chance, words: &mut Words) {
    let place = draw_word(chance, words);
    words.remove(place);
}

fn word_doubled(chance: &mut Chance, words: &mut Words) {
    let place = draw_word(chance, words);
    words.insert(place, words[place].clone());
}

fn words_swapped(chance: &mut Chance, words: &mut Words) {
    let place = draw_word(chance, words).min(words.len() - 2);
    words.swap(place, place + 1);
}

/// A text of a made book with its words so altered; now and then twice.
fn altered(chance: &mut Chance, alter: fn(&mut Chance, &mut Words)) -> Vec<u8> {
    let mut words = words_of(&values_of(&draw_book(chance)));
    for _ in 0..chance.pick(&[1, 1, 1, 1, 2]) {
        alter(chance, &mut words);
    }
    // As `read_book` prints it but for a few words, so that most lines are their own.
    if chance.one_in(2) {
        in_lines(&words)
    } else {
        written(chance, &words)
    }
}

/// A line feed before each name, and before what follows a row of a region or a unit.
fn in_lines(words: &[Vec<u8>]) -> Vec<u8> {
    let mut text = Vec::new();
    let mut left_in_row = 0;
    for (place, word) in words.iter().enumerate() {
        let row = match &word[..] {
            b"region" => Some(REGION_ROW),
            b"unit" => Some(UNIT_ROW),
            b"settings" | b"requirement" => Some(usize::MAX),
            _ => None,
        };
        if place > 0 {
            text.push(if row.is_some() || left_in_row == 0 { b'\n' } else { b' ' });
        }
        left_in_row = row.unwrap_or(if left_in_row == 0 { usize::MAX } else { left_in_row - 1 });
        text.extend(word);
    }
    text.push(b'\n');
    text
}

fn in_some_writing(chance: &mut Chance, given: &Given) -> Vec<u8> {
    if chance.one_in(2) {
        return in_text(given).into_bytes();
    }
    let words = words_of(given);
    written(chance, &words)
}

fn whole_in_odd_writing(chance: &mut Chance) -> Vec<u8> {
    let words = words_of(&values_of(&draw_book(chance)));
    in_odd_writing(chance, &words)
}

fn wrong_values(chance: &mut Chance) -> Vec<u8> {
    let maker = chance.pick(&WRONG_VALUES);
    let given = maker(chance, Width::Text);
    in_some_writing(chance, &given)
}

/// So many units and requirements, numbered from 1.
pub fn book_of_counts(units: usize, requirements: usize) -> Book {
    let mut book = listing_book();
    let (unit, requirement) = (book.units[0].clone(), book.requirements[0].clone());
    book.units.clear();
    book.requirements.clear();
    for number in 1..=units as i128 {
        book.units.push(crate::book::Unit { number, ..unit.clone() });
    }
    for number in 1..=requirements as i128 {
        book.requirements.push(crate::book::Requirement { number, ..requirement.clone() });
    }
    book
}

/// Counts at and past their limits, often with another fault, which comes first where it is one of the text.
fn wrong_counts(chance: &mut Chance) -> Vec<u8> {
    let small = chance.pick(&[0, 1, 2, 5]);
    let units = if chance.one_in(6) { chance.pick(&[512, 513, 513, 514, 600]) } else { small };
    let requirements = chance.pick(&[0, 1, 32, 33, 33, 34, 70]);
    let mut given = values_of(&book_of_counts(units, requirements));
    if chance.one_in(3) {
        let at = draw_record(chance, &given);
        spoil_value(chance, &mut given, at, Width::Text);
    }
    let mut words = words_of(&given);
    if chance.one_in(4) {
        let alter = chance.pick(&[word_changed as fn(&mut Chance, &mut Words), word_dropped, word_doubled]);
        alter(chance, &mut words);
    }
    in_lines(&words)
}

fn cut_short(chance: &mut Chance) -> Vec<u8> {
    let given = values_of(&draw_book(chance));
    let mut text = in_some_writing(chance, &given);
    text.truncate(chance.place(text.len() + 1));
    text
}

/// A byte changed, put in or taken out.
fn byte_changed(chance: &mut Chance) -> Vec<u8> {
    let given = values_of(&draw_book(chance));
    let mut text = in_some_writing(chance, &given);
    for _ in 0..chance.pick(&[1, 1, 2]) {
        let place = chance.place(text.len());
        let any = chance.draw() as u8;
        let byte = chance.pick(&[any, b' ', b'\n', b'#', b'-', b'+', b'0', b'9', 0x0B, 0x0C, 0, 0xA0]);
        match chance.place(3) {
            0 => text[place] = byte,
            1 => text.insert(place, byte),
            _ => drop(text.remove(place)),
        }
    }
    text
}

type TextMaker = fn(&mut Chance) -> Vec<u8>;

const TEXTS: [(&str, TextMaker); 14] = [
    ("odd", whole_in_odd_writing),
    ("odd", whole_in_odd_writing),
    ("changed", |chance| altered(chance, word_changed)),
    ("changed", |chance| altered(chance, word_changed)),
    ("dropped", |chance| altered(chance, word_dropped)),
    ("doubled", |chance| altered(chance, word_doubled)),
    ("swapped", |chance| altered(chance, words_swapped)),
    ("values", wrong_values),
    ("values", wrong_values),
    ("values", wrong_values),
    ("values", wrong_values),
    ("counts", wrong_counts),
    ("cut", cut_short),
    ("byte", byte_changed),
];

/// A text for `write_book`.
pub fn text_trial(seed: u64, nth: u64) -> WriterTrial {
    let (kind, maker) = TEXTS[nth as usize % TEXTS.len()];
    trial(seed, nth, kind, maker(&mut chance_of(seed, nth, 3)))
}

/// The text of the paper's book: 16 lines.
pub fn paper_text() -> String {
    in_text(&values_of(&listing_book()))
}

/// The paper's text with the first such piece of it replaced.
fn paper_with(old: &str, new: &str) -> Vec<u8> {
    let text = paper_text();
    assert!(text.contains(old), "{old}");
    text.replacen(old, new, 1).into_bytes()
}

/// The paper's text with the value at t of the nth series of 75 (regions 0 to 4, units 1 and 2) replaced.
fn paper_with_point(nth: usize, t: usize, word: &str) -> Vec<u8> {
    let text = paper_text();
    let mut lines: Vec<String> = text.lines().map(str::to_string).collect();
    let line = &mut lines[2 + 2 * nth];
    let mut words: Vec<&str> = line.split(' ').collect();
    words[t - 1] = word;
    *line = words.join(" ");
    (lines.join("\n") + "\n").into_bytes()
}

fn counted(units: usize, requirements: usize) -> Vec<u8> {
    in_text(&values_of(&book_of_counts(units, requirements))).into_bytes()
}

/// Texts of the paper's book in other writing, which is written of each of them.
fn as_the_paper() -> Vec<(&'static str, Vec<u8>)> {
    let plain = paper_text();
    let with = |old: &str, new: &str| plain.replace(old, new).into_bytes();
    vec![
        ("plain", plain.clone().into_bytes()),
        ("no-last-line-feed", plain.trim_end().as_bytes().to_vec()),
        ("one-line", with("\n", " ")),
        ("a-word-a-line", with(" ", "\n")),
        ("tabs", with(" ", "\t")),
        ("several-blanks", with(" ", " \t  ")),
        ("open-carriage-returns", with("\n", "\r\n")),
        ("open-carriage-returns-alone", with("\n", "\r")),
        ("blank-lines", with("\n", "\n\n \n")),
        ("comments", with("\n", " # unit 5\n# - + x\n")),
        ("comment-behind-a-word", with("\n", "#5 6 7\n")),
        ("comment-between-words", with(" ", "# a comment\n")),
        ("comment-at-the-head", format!("# the paper's book\n{plain}").into_bytes()),
        ("comment-at-the-end", format!("{plain}# the end").into_bytes()),
        ("comment-in-a-comment", format!("{plain}# the # end\n").into_bytes()),
        ("comment-of-any-bytes", [plain.as_bytes(), b"#\x00\xff\x0b\n"].concat()),
        ("leading-zeros", with(" ", " 0").replace(b" 0-", b" -0")),
        ("minus-zero", paper_with("region 0 0 100000", "region -0 -00 0100000")),
        ("many-zeros", paper_with("settings ", &format!("settings {}", "0".repeat(400)))),
    ]
}

/// Replacing in bytes, for the few texts that need it twice.
trait Replace {
    fn replace(&self, old: &[u8], new: &[u8]) -> Vec<u8>;
}

impl Replace for Vec<u8> {
    fn replace(&self, old: &[u8], new: &[u8]) -> Vec<u8> {
        let [text, old, new] =
            [&self[..], old, new].map(|bytes| std::str::from_utf8(bytes).expect("plain text"));
        text.replace(old, new).into_bytes()
    }
}

/// Texts that say no book, with what is printed of them.
fn not_a_book() -> Vec<(&'static str, Vec<u8>, &'static str)> {
    let plain = paper_text();
    let behind = |more: &str| format!("{plain}{more}").into_bytes();
    vec![
        ("empty", b"".to_vec(), "text 1"),
        ("line-feeds", b"\n\n".to_vec(), "text 3"),
        ("blanks", b" \t\r ".to_vec(), "text 1"),
        ("a-comment", b"# nothing".to_vec(), "text 1"),
        ("a-comment-line", b"# nothing\n".to_vec(), "text 2"),
        ("settings-alone", b"settings 10000 10 20 7\n".to_vec(), "text 2"),
        ("settings-cut", b"settings 10000 10 20".to_vec(), "text 1"),
        ("no-settings", paper_with("settings 10000 10 20 7\n", ""), "text 1"),
        ("a-capital", paper_with("settings", "Settings"), "text 1"),
        ("a-longer-name", paper_with("unit", "units"), "text 12"),
        ("a-name-with-its-number", paper_with("unit 1", "unit1"), "text 12"),
        ("a-number-missing", paper_with("10 20 7", "10 20"), "text 2"),
        ("a-number-more", paper_with("10 20 7", "10 20 7 7"), "text 1"),
        ("a-plus", paper_with("settings 10000", "settings +10000"), "text 1"),
        ("a-point-with-a-plus", paper_with_point(0, 5, "+49980000"), "text 3"),
        ("a-decimal", paper_with("10 20 7", "10 20.0 7"), "text 1"),
        ("a-comma", paper_with("100000", "100,000"), "text 2"),
        ("past-i64", paper_with("10 20 7", "10 20 9223372036854775808"), "text 1"),
        ("past-i64-below", paper_with("10 20 7", "10 20 -9223372036854775809"), "text 1"),
        ("the-last-of-i64", paper_with("10 20 7", "10 20 9223372036854775807"), "refused 6 1 0"),
        ("the-first-of-i64", paper_with("10 20 7", "10 20 -9223372036854775808"), "refused 6 1 0"),
        ("a-bad-mark-in-a-row", paper_with("10 20 7", "10 - 7"), "text 1"),
        ("two-marks", paper_with_point(0, 5, "--"), "text 3"),
        ("a-mark-and-a-value", paper_with_point(0, 5, "- 49980000"), "text 3"),
        ("open-a-vertical-tab", paper_with("10 20 7", "10\u{b}20 7"), "text 1"),
        ("open-a-no-break-space", paper_with("10 20 7", "10\u{a0}20 7"), "text 1"),
        ("a-sixth-region", paper_with("unit", "region"), "text 12"),
        ("open-behind-the-regions", paper_with("unit", "x unit"), "text 12"),
        ("behind-the-units", paper_with("requirement", "# 1\nx requirement"), "text 17"),
        ("behind-the-end", behind("x"), "text 17"),
        ("a-number-behind-the-end", behind("\n\n 0"), "text 19"),
        ("a-unit-behind-the-end", behind("unit"), "text 17"),
        ("a-requirement-without-numbers", behind("requirement"), "text 17"),
        ("a-requirement-that-ends-early", behind("requirement 2 1 0 0 0 0\n# 5\n"), "text 19"),
        ("a-settings-behind-the-end", behind("settings 1 1 1 1"), "text 17"),
        ("twice", plain.repeat(2).into_bytes(), "text 17"),
        ("a-word-hidden", paper_with("10 20 7", "10 20 #7"), "text 2"),
    ]
}

/// Texts whose book is refused, with what is printed of them.
fn refused_texts() -> Vec<(&'static str, Vec<u8>, &'static str)> {
    let no_requirement = counted(2, 0);
    vec![
        ("a-good-point-of-0", paper_with_point(2, 75, "0"), "refused 74 3 75"),
        ("a-point-of-minus-0", paper_with_point(2, 1, "-0"), "refused 74 3 1"),
        ("a-point-past-u32", paper_with_point(4, 2, "4344967296"), "refused 74 5 2"),
        ("a-point-below-u32", paper_with_point(4, 2, "-4244967296"), "refused 74 5 2"),
        ("a-point-at-the-end-of-i64", paper_with_point(1, 9, "9223372036854775807"), "refused 74 2 9"),
        ("a-reading-past-i32", paper_with_point(6, 74, "4294972326"), "refused 84 2 74"),
        ("a-reading-below-i32", paper_with_point(6, 74, "-4294962266"), "refused 84 2 74"),
        ("a-unit-number-past-u16", paper_with("unit 2", "unit 65538"), "refused 9 2 0"),
        ("a-unit-number-below-0", paper_with("unit 1", "unit -1"), "refused 9 1 0"),
        ("a-group-past-u16", paper_with("5000 5000 0", "5000 5000 65536"), "refused 83 2 0"),
        ("an-interval-past-u32", paper_with("10 20 7", "10 20 4294967303"), "refused 6 1 0"),
        ("a-requirement-number-past-u16", paper_with("requirement 1", "requirement 65537"), "refused 10 1 0"),
        ("a-cost-below-0", paper_with("1200 1000", "1200 -1"), "refused 10 1 0"),
        ("a-separation-past-u8", paper_with("region 0 0 100000", "region 256 0 100000"), "refused 71 1 0"),
        ("no-requirement", no_requirement.clone(), "refused 5 0 0"),
        ("no-requirement-and-a-fault", no_requirement.replace(b"unit 2 0", b"unit 2 5"), "refused 5 0 0"),
        ("513-units", counted(513, 1), "refused 5 0 0"),
        ("33-requirements", counted(0, 33), "refused 5 0 0"),
        ("513-units-and-33-requirements", counted(513, 33), "refused 5 0 0"),
        ("513-units-and-no-requirement", counted(513, 0), "refused 5 0 0"),
        ("513-units-and-wrong-settings", counted(513, 1).replace(b"10 20 7", b"76 20 7"), "refused 5 0 0"),
        ("33-requirements-and-a-word", [counted(0, 33), b"x".to_vec()].concat(), "text 45"),
        ("a-fault-and-a-word", [paper_with("10 20 7", "76 20 7"), b"x".to_vec()].concat(), "text 17"),
        ("a-word-in-the-513th-unit", counted(513, 1).replace(b"unit 513", b"unit x"), "text 1036"),
    ]
}

/// Texts that are known beforehand, with all that `write_book` prints of them.
pub fn known_texts() -> Vec<(WriterTrial, Vec<u8>)> {
    let named = |name: &str, bytes| WriterTrial { name: format!("known-{name}"), bytes };
    let paper = to_bytes(&listing_book());
    let mut all: Vec<(WriterTrial, Vec<u8>)> =
        as_the_paper().into_iter().map(|(name, text)| (named(name, text), paper.clone())).collect();
    for (name, text, printed) in not_a_book().into_iter().chain(refused_texts()) {
        all.push((named(name, text), format!("{printed}\n").into_bytes()));
    }
    let most = book_of_counts(512, 32);
    all.push((named("512-units-and-32-requirements", counted(512, 32)), to_bytes(&most)));
    all.push((named("no-unit", counted(0, 1)), to_bytes(&book_of_counts(0, 1))));
    all
}
