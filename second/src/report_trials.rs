//! What the programs `report` and `report_rows` are held to (request R-11): books, whole and
//! damaged, of every roster size, with versions; arguments; and rows, right ones and wrong ones. A
//! seed and a number name each.

use crate::book::Book;
use crate::chance::Chance;
use crate::damage::damage;
use crate::make::{make, CLASSES, ROSTERS};
use crate::report::*;
use crate::report_changes::{any_row, change, Way};
use crate::report_door::{row_reply, RowCall};
use crate::report_words::{draw_interval, wrong_words};
use crate::write::to_bytes;

/// Bytes for `report` with its argument, and how to make them again.
#[derive(Clone, Debug)]
pub struct ReportTrial {
    pub name: String,
    pub bytes: Vec<u8>,
    pub version: Option<String>,
}

/// The large rosters cost the most and tell no more than the small ones: each stands here once.
const TURNS: [usize; 32] = [
    0, 1, 5, 7, 13, 76, 1, 5, 7, 13, 0, 5, 7, 13, 477, 76, 1, 5, 7, 13, 76, 509, 5, 7, 13, 511, 1, 5, 76, 7,
    512, 13,
];

/// The roster of a number: each size of the list, since 32 turns meet each of the four sorts of
/// trials.
fn roster_of(nth: u64) -> usize {
    // After each round the turns start one later, so that every size meets every sort and every
    // interval.
    let round = nth as usize / TURNS.len();
    TURNS[(nth as usize + round) % TURNS.len()]
}

fn made_book(chance: &mut Chance, nth: u64) -> Book {
    let (class, _) = chance.pick(&CLASSES);
    let roster = roster_of(nth);
    debug_assert!(ROSTERS.contains(&roster));
    let mut book = make(chance.draw(), class, Some(roster)).expect("a class of the list");
    book.settings.interval = if nth % 5 == 4 {
        let any = chance.between(0, i128::from(u32::MAX));
        chance.pick(&[any, any, any, LAST_INTERVAL + 1, i128::from(u32::MAX)])
    } else {
        draw_interval(chance)
    };
    book
}

/// No argument, or a version, perhaps with leading zeros.
fn draw_version(chance: &mut Chance) -> Option<String> {
    let any = chance.between(0, VERSION_LIMIT);
    let version = chance.pick(&[0, 1, VERSION_LIMIT, any, any]);
    match chance.place(6) {
        0 => None,
        1 => Some(format!("{version:06}")),
        _ => Some(version.to_string()),
    }
}

/// One book in four is a damaged one.
const SORTS: [&str; 4] = ["made", "made", "made", "damaged"];

pub fn book_trial(seed: u64, nth: u64) -> ReportTrial {
    let mut chance = Chance::new(seed.wrapping_mul(0x1_0000_0001).wrapping_add(nth).wrapping_add(4 << 56));
    let sort = SORTS[nth as usize % SORTS.len()];
    let mut bytes = to_bytes(&made_book(&mut chance, nth));
    if sort == "damaged" {
        bytes = damage(chance.draw(), &bytes);
    }
    ReportTrial { name: format!("{seed}-{nth}-{sort}"), bytes, version: draw_version(&mut chance) }
}

/// Arguments that are a version, each in an odd writing.
pub fn right_arguments() -> Vec<&'static str> {
    vec!["0", "00", "00001", "65535", "065535", "00000000000000000000", "00000000000000065535"]
}

/// Arguments that are none.
pub fn wrong_arguments() -> Vec<Vec<&'static str>> {
    vec![
        vec![""],
        vec![" "],
        vec!["65536"],
        vec!["99999"],
        vec!["100000"],
        vec!["4294967296"],
        vec!["4294967297"],
        vec!["18446744073709551617"],
        vec!["99999999999999999999"],
        vec!["000000000000000000001"],
        vec!["000000000000000000000"],
        vec!["-1"],
        vec!["-0"],
        vec!["+1"],
        vec![" 1"],
        vec!["1 "],
        vec!["1.0"],
        vec!["0x1"],
        vec!["1a"],
        vec!["a"],
        vec!["--help"],
        vec!["one"],
        vec!["\u{0661}"],
        vec!["1", "1"],
        vec!["1", ""],
        vec!["", "1"],
        vec!["1", "2", "3"],
    ]
}

/// The longest row that there is.
pub fn longest_row() -> Vec<u8> {
    let least = i128::from(i64::MIN);
    let call = RowCall {
        interval: LAST_INTERVAL,
        residual: 1,
        number: 0,
        raise: least,
        raise_type: 0,
        lower: least,
        lower_type: 0,
        version: VERSION_LIMIT,
    };
    row_reply(&call, LONGEST_ROW).expect("a row of 106 bytes").into_bytes()
}

/// A row that is probably wrong, often near the length where a program may stop to look.
fn doubtful_row(chance: &mut Chance) -> Vec<u8> {
    let row = if chance.one_in(2) { longest_row() } else { any_row(chance) };
    let place = chance.place(row.len());
    match chance.place(6) {
        0 => [&row[..place], &vec![row[place]; chance.pick(&[1, 2, 3, 50, 5_000])], &row[place..]].concat(),
        1 => [&row[..place], &b"0".repeat(chance.pick(&[1, 2, 3, 44, 70_000])), &row[place..]].concat(),
        2 => {
            let mut columns: Vec<&[u8]> = row.splitn(7, |&byte| byte == b',').collect();
            let column = chance.place(7);
            columns[column] = chance.pick(wrong_words(column + 1)).as_bytes();
            columns.join(&b","[..])
        }
        3 => {
            let columns: Vec<&[u8]> = row.splitn(7, |&byte| byte == b',').take(chance.place(7) + 1).collect();
            [&columns.join(&b","[..]), &b"\n"[..]].concat()
        }
        _ => {
            let way = chance.pick(&Way::ALL);
            change(chance, &row, way, place)
        }
    }
}

/// Inputs for `report_rows` that are told by hand.
pub fn known_rows() -> Vec<Vec<u8>> {
    let row = longest_row();
    let cut = &row[..row.len() - 1];
    let mut all = vec![
        Vec::new(),
        b"\n".to_vec(),
        b"\n\n".to_vec(),
        b",,,,,,\n".to_vec(),
        row.clone(),
        cut.to_vec(),
        [&row[..], &row].concat(),
        [&row[..], b"\n"].concat(),
        [&row[..], cut].concat(),
        [cut, b"\r\n"].concat(),
        [b"\n", &row[..]].concat(),
        vec![b'0'; 1_000_000],
        vec![b','; 1_000_000],
    ];
    all.extend((0..row.len()).map(|length| row[..length].to_vec()));
    all
}

/// Some right rows, a doubtful one, and perhaps more behind it.
pub fn rows_trial(seed: u64, nth: u64) -> Vec<u8> {
    let mut chance = Chance::new(seed.wrapping_mul(0x1_0000_0001).wrapping_add(nth).wrapping_add(5 << 56));
    let mut rows = Vec::new();
    for _ in 0..chance.pick(&[0, 1, 2, 9, 300]) {
        rows.extend(any_row(&mut chance));
    }
    rows.extend(doubtful_row(&mut chance));
    for _ in 0..chance.pick(&[0, 1, 2]) {
        rows.extend(any_row(&mut chance));
    }
    rows
}
