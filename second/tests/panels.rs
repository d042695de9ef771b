//! The panel (request R-13): the paper's pages, figures, phrases, the page record, the doors, what `watch` prints, and what the
//! makers of trials reach.

use std::collections::{BTreeMap, BTreeSet};
use std::ffi::OsString;
use std::fs;
use std::io::{Read, Write};
use std::path::PathBuf;
use std::process::{Command, Output, Stdio};

use second::book::{read_book, Book};
use second::cents::settle_book;
use second::chance::Chance;
use second::listing::settle;
use second::make::{make, CLASSES};
use second::members::Name;
use second::panel::*;
use second::panel_door::*;
use second::panel_script::*;
use second::panel_trials::*;
use second::quantities::*;
use second::watch::*;
use second::worked::{self, listing_book};
use second::write::{base_requirement, to_bytes};

/// The paper's four pages; each line has its 20 characters.
const PAPER: [[&str; 4]; 4] = [
    ["req 1 raise         ", "RCR             7500", "POOL             100", "COST            1000"],
    ["unit 1          live", "PAY              100", "USED               0", "IDLE            -223"],
    ["unit 2          live", "PAY              -30", "USED            -100", "IDLE            -222"],
    ["residual        live", "PAY              -70", "USED            -233", "IDLE            -222"],
];

fn paper(page: usize) -> String {
    PAPER[page].concat()
}

/// The screen as it is printed.
fn paper_screen(page: usize) -> String {
    PAPER[page].iter().map(|line| format!("{line}\n")).collect()
}

fn screen_of_phrase(phrase: &str) -> String {
    let lines = [format!("{phrase:<20}"), " ".repeat(20), " ".repeat(20), " ".repeat(20)];
    lines.iter().map(|line| format!("{line}\n")).collect()
}

fn pages_of(book: &Book) -> Vec<Vec<String>> {
    let all = settle_book(book).expect("a book");
    all.iter().zip(&book.requirements).map(|(settled, of)| pages(settled, of.cost)).collect()
}

#[test]
fn the_paper_s_book_has_four_pages() {
    let all = pages_of(&listing_book());
    assert_eq!(all.len(), 1);
    assert_eq!(all[0], [paper(0), paper(1), paper(2), paper(3)]);
    assert!(all[0].iter().all(|text| text.len() == 80));
}

#[test]
fn a_figure_has_16_places_or_is_hashes() {
    let hashes = "################";
    let edges = [
        (0, "               0"),
        (1, "               1"),
        (-1, "              -1"),
        (9_999_999_999_999_999, "9999999999999999"),
        (10_000_000_000_000_000, hashes),
        (10_000_000_000_000_001, hashes),
        (1_000_000_000_000_000, "1000000000000000"),
        (999_999_999_999_999, " 999999999999999"),
        (-99_999_999_999_999, " -99999999999999"),
        (-100_000_000_000_000, "-100000000000000"),
        (-999_999_999_999_999, "-999999999999999"),
        (-1_000_000_000_000_000, hashes),
        (-1_000_000_000_000_001, hashes),
        (i128::from(i64::MAX), hashes),
        (i128::from(i64::MIN), hashes),
    ];
    for (number, places) in edges {
        assert_eq!(figure(number), places, "{number}");
    }
}

/// It is hashes just from 10^16 on and from -10^15 down, and otherwise it is the number again.
#[test]
fn a_figure_is_read_back() {
    let mut chance = Chance::new(13);
    let drawn: Vec<i64> = (0..20_000).map(|_| (chance.draw() as i64) >> chance.place(64)).collect();
    for number in edge_figures().into_iter().chain(drawn).map(i128::from) {
        let places = figure(number);
        assert_eq!(places.len(), 16, "{number}");
        let wide = number >= 10_000_000_000_000_000 || number <= -1_000_000_000_000_000;
        assert_eq!(places == "#".repeat(16), wide, "{number}");
        if !wide {
            assert_eq!(places.trim_start().parse(), Ok(number));
            assert!(!places.ends_with(' '));
        }
    }
}

#[test]
fn first_pages() {
    let text = first_page(65_535, Direction::Lower, [0, i128::from(i64::MAX), 1_000_000_000_000]);
    let lines =
        ["req 65535 lower     ", "RCR                0", "POOL################", "COST   1000000000000"];
    assert_eq!(text, lines.concat());
    let text = first_page(0, Direction::Raise, [9_999_999_999_999_999, -999_999_999_999_999, -1]);
    let lines =
        ["req 0 raise         ", "RCR 9999999999999999", "POOL-999999999999999", "COST              -1"];
    assert_eq!(text, lines.concat());
}

#[test]
fn member_pages() {
    let text = member_page(Name::Unit(65_535), false, [i64::MIN, 10_000_000_000_000_000, 7].map(i128::from));
    let lines =
        ["unit 65535   default", "PAY ################", "USED################", "IDLE               7"];
    assert_eq!(text, lines.concat());
    let text = member_page(Name::Residual, false, [-3, -2, -1]);
    let lines =
        ["residual     default", "PAY               -3", "USED              -2", "IDLE              -1"];
    assert_eq!(text, lines.concat());
    assert_eq!(&member_page(Name::Unit(7), true, [0; 3])[..20], "unit 7          live");
    assert_eq!(&member_page(Name::Residual, true, [0; 3])[..20], "residual        live");
}

const PHRASES: [(u32, &str); 23] = [
    (1, "ends too early"),
    (2, "not an interval book"),
    (3, "wrong contents table"),
    (4, "bytes after the end"),
    (5, "count out of limits"),
    (6, "wrong settings"),
    (9, "unit out of order"),
    (10, "wrong requirement"),
    (11, "call out of turn"),
    (12, "buffer too short"),
    (14, "default too low"),
    (15, "year past 9999"),
    (16, "wrong group"),
    (17, "week out of limits"),
    (18, "wrong report row"),
    (71, "wrong frequency data"),
    (72, "wrong frequency data"),
    (73, "wrong frequency data"),
    (74, "wrong frequency data"),
    (81, "wrong unit data"),
    (82, "wrong unit data"),
    (83, "wrong unit data"),
    (84, "wrong unit data"),
];

/// Every number that a refusal has, and every other one to 100, those taken away among them.
#[test]
fn every_phrase() {
    let known = BTreeMap::from(PHRASES);
    for number in (0..=1_000).chain([65_536 + 1, u32::MAX - 83, u32::MAX]) {
        assert_eq!(phrase(number), known.get(&number).copied().unwrap_or("unknown"), "{number}");
        assert_eq!(phrase_page(number), format!("{:<80}", phrase(number)));
    }
    for number in [0, 7, 8, 13, 19, 70, 75, 80, 85] {
        assert_eq!(phrase(number), "unknown");
    }
    assert!(PHRASES.iter().all(|(_, phrase)| phrase.len() <= 20 && *phrase != "unknown"));
}

fn at(page: i128) -> Page {
    Page { book: 3, requirement: 8, page }
}

/// The page after a key in the same book and requirement.
fn page_after(page: i128, key: Key, members: i128) -> i128 {
    let after = step(at(page), key, 3, 8, members);
    assert_eq!((after.book, after.requirement), (3, 8));
    after.page
}

const LAST_WORD: i128 = u32::MAX as i128;

#[test]
fn keys_move_the_page() {
    assert_eq!(Key::ALL.map(|key| page_after(5, key, 9)), [5, 6, 4, 0]);
    assert_eq!(Key::ALL.map(|key| page_after(0, key, 9)), [0, 1, 0, 0]);
    assert_eq!(Key::ALL.map(|key| page_after(9, key, 9)), [9, 9, 8, 0]);
    assert_eq!(
        Key::ALL.map(|key| page_after(LAST_WORD, key, LAST_WORD)),
        [LAST_WORD, LAST_WORD, LAST_WORD - 1, 0]
    );
}

/// The clamp is before the key: previous from past the last is the last but one.
#[test]
fn a_page_past_the_last_acts_as_the_last() {
    for page in [10, 11, 512, LAST_WORD] {
        assert_eq!(Key::ALL.map(|key| page_after(page, key, 9)), [9, 9, 8, 0]);
    }
}

#[test]
fn without_members_there_is_the_first_page_alone() {
    for page in [0, 1, LAST_WORD] {
        assert_eq!(Key::ALL.map(|key| page_after(page, key, 0)), [0, 0, 0, 0]);
    }
}

/// Home first, then the key.
#[test]
fn another_book_or_requirement_goes_home() {
    for (book, requirement) in [(4, 8), (3, 9), (4, 9), (2, 8), (3, 7), (3 + 65_536, 8), (3, 8 + 65_536)] {
        for page in [0, 1, 5, 9, 10, LAST_WORD] {
            let after = Key::ALL.map(|key| step(at(page), key, book, requirement, 9));
            assert_eq!(after.map(|after| after.page), [0, 1, 0, 0]);
            assert!(after.iter().all(|after| (after.book, after.requirement) == (book, requirement)));
        }
    }
}

#[test]
fn next_reaches_every_page_and_no_other() {
    for members in [0, 1, 5, 513] {
        let mut page = 0;
        let mut reached = vec![page];
        for _ in 0..members + 3 {
            page = page_after(page, Key::Next, members);
            reached.push(page);
        }
        let all = (0..=members).chain([members; 3]);
        assert_eq!(reached, all.collect::<Vec<_>>());
    }
}

#[test]
fn home_after_any_keys() {
    let mut chance = Chance::new(3);
    for _ in 0..2_000 {
        let members = chance.between(0, 6);
        let mut page = chance.between(0, 9);
        for _ in 0..chance.place(20) {
            page = page_after(page, chance.pick(&Key::ALL), members);
            assert!((0..=members).contains(&page));
        }
        assert_eq!(page_after(page, Key::Home, members), 0);
    }
}

/// Hexadecimal digits of a text, and so many bytes behind it as they were.
fn hex(text: &str, behind: usize) -> String {
    text.bytes().map(|byte| format!("{byte:02x}")).collect::<String>() + &"a5".repeat(behind)
}

#[test]
fn the_doors_write_80_bytes() {
    let worked = [
        ("first 1 0 7500 100 1000 80", format!("first 0 {}", hex(&paper(0), 0))),
        ("first 1 0 7500 100 1000 100", format!("first 0 {}", hex(&paper(0), 20))),
        ("member 0 1 0 100 0 -223 81", format!("member 0 {}", hex(&paper(1), 1))),
        ("member 1 4294967295 0 -70 -233 -222 80", format!("member 0 {}", hex(&paper(3), 0))),
        ("phrase 74 80", format!("phrase 0 {}", hex(&phrase_page(74), 0))),
        ("phrase 4294967295 82", format!("phrase 0 {}", hex(&phrase_page(0), 2))),
    ];
    for (line, answer) in worked {
        assert_eq!(answer_line(line), answer, "{line}");
    }
}

/// 0 is live; 1, 2 and 3 are one and the same default, of a unit and of the residual; from 4 on there is none.
#[test]
fn the_door_of_a_member_takes_every_standing() {
    let rest = "PAY               -3USED              -2IDLE              -1";
    let heads = [
        ("0 7", "unit 7          live", "unit 7       default"),
        ("1 7", "residual        live", "residual     default"),
    ];
    for (name, live, default) in heads {
        for (standing, head) in [live, default, default, default].into_iter().enumerate() {
            let line = format!("member {name} {standing} -3 -2 -1 80");
            assert_eq!(
                answer_line(&line),
                format!("member 0 {}", hex(&format!("{head}{rest}"), 0)),
                "{line}"
            );
        }
        for standing in [4, 5, 7, 255, 256, 259, 65_536, 65_537, 1 << 31, u32::MAX] {
            let line = format!("member {name} {standing} -3 -2 -1 80");
            assert_eq!(answer_line(&line), format!("member 11 {}", "a5".repeat(80)), "{line}");
        }
    }
}

/// 11 before 12; nothing is written.
#[test]
fn the_doors_refuse() {
    let short = "a5".repeat(79);
    let long = "a5".repeat(80);
    let worked = [
        ("first 65536 0 1 2 3 80", format!("first 11 {long}")),
        ("first 65535 2 1 2 3 80", format!("first 11 {long}")),
        ("first 65536 0 1 2 3 79", format!("first 11 {short}")),
        ("first 65535 1 1 2 3 79", format!("first 12 {short}")),
        ("first 65535 1 1 2 3 0", "first 12 -".to_string()),
        ("first 65535 1 1 2 3 1", "first 12 a5".to_string()),
        ("member 2 1 0 1 2 3 80", format!("member 11 {long}")),
        ("member 0 65536 0 1 2 3 80", format!("member 11 {long}")),
        ("member 0 65535 4 1 2 3 79", format!("member 11 {short}")),
        ("member 1 65536 4 1 2 3 80", format!("member 11 {long}")),
        ("member 1 65536 4294967295 1 2 3 80", format!("member 11 {long}")),
        ("member 1 65536 3 1 2 3 79", format!("member 12 {short}")),
        ("member 0 65535 2 1 2 3 79", format!("member 12 {short}")),
        ("member 0 65535 1 1 2 3 0", "member 12 -".to_string()),
        ("phrase 1 79", format!("phrase 12 {short}")),
        ("phrase 4294967295 0", "phrase 12 -".to_string()),
    ];
    for (line, answer) in worked {
        assert_eq!(answer_line(line), answer, "{line}");
    }
}

#[test]
fn the_door_of_a_step() {
    let worked = [
        ("step 3 5 6 7 1 5 6 9", "step 0 5 6 8"),
        ("step 4 5 6 7 1 5 6 9", "step 0 5 6 8 7"),
        ("step 3 5 6 7 1 5 6 7", "step 0 5 6 7"),
        ("step 3 5 6 7 1 4 6 9", "step 0 4 6 1"),
        ("step 3 5 6 7 0 5 4 9", "step 0 5 4 0"),
        ("step 3 5 6 4294967295 0 5 6 4294967295", "step 0 5 6 4294967295"),
        ("step 3 5 6 4294967295 1 5 6 4294967295", "step 0 5 6 4294967295"),
        ("step 3 5 6 4294967295 2 5 6 512", "step 0 5 6 511"),
        ("step 3 5 6 7 3 5 6 9", "step 0 5 6 0"),
        ("step 2 5 6 7 1 5 6 9", "step 12 5 6"),
        ("step 2 5 6 7 4 5 6 9", "step 12 5 6"),
        ("step 1 5 6 7 1 4 6 9", "step 12 5"),
        ("step 0 5 6 7 1 5 6 9", "step 12"),
        ("step 3 5 6 7 4 4 6 9", "step 11 5 6 7"),
        ("step 4 5 6 7 4294967295 4 6 9", "step 11 5 6 7 7"),
        ("step 5 5 6 7 1 5 6 9", "bad line"),
    ];
    for (line, answer) in worked {
        assert_eq!(answer_line(line), answer, "{line}");
    }
}

#[test]
fn lines_that_are_none() {
    let lines = ["", "first", "first 1 0 1 2 3", "first -1 0 1 2 3 80", "first 4294967296 0 1 2 3 80"];
    let more = ["member 0 1 0 9223372036854775808 2 3 80", "phrase 1 -1", "phrase  1 80", "other 1 80"];
    for line in lines.into_iter().chain(more) {
        assert_eq!(answer_line(line), "bad line", "{line}");
    }
}

const SCRIPT: u64 = 20_000;

#[test]
fn a_script_s_lines_are_its_calls() {
    let mut script = Vec::new();
    write_calls(SCRIPT, 7, &mut script).expect("room");
    let script = String::from_utf8(script).expect("words");
    assert_eq!(script.lines().count() as u64, SCRIPT);
    for (nth, line) in script.lines().enumerate() {
        assert_eq!(line_in(line), Some(call(7, nth as u64).1), "{line}");
    }
}

/// The calls of a script that are not refused.
fn written_calls() -> Vec<PanelCall> {
    let calls = (0..SCRIPT).map(|nth| call(7, nth).1);
    calls.filter(|call| !sort_of(call).starts_with("refused")).collect()
}

#[test]
fn a_script_draws_every_edge_of_a_figure_in_every_place() {
    let mut met: BTreeSet<(&str, usize, i64)> = BTreeSet::new();
    for call in written_calls() {
        let (door, figures) = match call {
            PanelCall::First(call) => ("first", call.figures),
            PanelCall::Member(call) => ("member", call.figures),
            _ => continue,
        };
        met.extend(figures.iter().enumerate().map(|(place, &figure)| (door, place, figure)));
    }
    for figure in edge_figures() {
        for (door, place) in
            ["first", "member"].iter().flat_map(|door| (0..3).map(move |place| (door, place)))
        {
            assert!(met.contains(&(door, place, figure)), "{door} {place} {figure}");
        }
    }
}

#[test]
fn a_script_names_everybody() {
    let mut met: BTreeSet<(&str, u32, u32)> = BTreeSet::new();
    for call in written_calls() {
        match call {
            PanelCall::First(call) => met.insert(("first", call.number, call.direction)),
            PanelCall::Member(call) if call.residual == 1 => {
                met.insert(("residual", call.number, call.standing))
            }
            PanelCall::Member(call) => met.insert(("unit", call.number, call.standing)),
            _ => false,
        };
    }
    for (place, number) in NUMBERS.into_iter().enumerate() {
        for (who, count) in [("first", 2), ("unit", 4), ("residual", 4)] {
            let right = who == "residual" || place < RIGHT_NUMBERS;
            for word in 0..count {
                assert_eq!(met.contains(&(who, number, word)), right, "{who} {number} {word}");
            }
            assert!(!met.contains(&(who, number, count)), "{who} {number}");
        }
    }
}

/// Members' pages are counted apart by their standing, of which there are four.
#[test]
fn a_script_counts_every_standing() {
    let members = written_calls().into_iter().filter(|call| matches!(call, PanelCall::Member(_)));
    let sorts: BTreeSet<String> = members.map(|call| sort_of(&call)).collect();
    let all = (0..4).flat_map(|standing| {
        (0..4).map(move |hashes| format!("standing {standing} written with {hashes} as hashes"))
    });
    assert_eq!(sorts, all.collect());
}

/// Every number, flag and standing over its width is met with a text that is long enough, and refused.
#[test]
fn a_script_is_refused_by_each_number_alone() {
    let mut met: BTreeSet<(&str, u32)> = BTreeSet::new();
    for (_, call) in (0..SCRIPT).map(|nth| call(7, nth)) {
        match call {
            PanelCall::First(call) if call.room >= 80 => match (call.number > 65_535, call.direction > 1) {
                (true, false) => met.insert(("number", call.number)),
                (false, true) => met.insert(("direction", call.direction)),
                _ => false,
            },
            PanelCall::Member(call) if call.room >= 80 => {
                let wide = call.residual == 0 && call.number > 65_535;
                match (call.residual > 1, wide, call.standing > 3) {
                    (true, false, false) => met.insert(("residual", call.residual)),
                    (false, true, false) => met.insert(("unit", call.number)),
                    (false, false, true) => met.insert(("standing", call.standing)),
                    _ => false,
                }
            }
            _ => false,
        };
    }
    let wide = &NUMBERS[RIGHT_NUMBERS..];
    let flags: Vec<u32> = FLAGS.into_iter().filter(|&flag| flag > 1).collect();
    let standings = &STANDINGS[RIGHT_STANDINGS..];
    assert!(standings.contains(&4) && standings.iter().all(|&standing| standing > 3));
    for (what, list) in [("number", wide), ("unit", wide), ("direction", &flags), ("residual", &flags)] {
        assert!(list.iter().all(|&number| met.contains(&(what, number))), "{what}");
    }
    assert!(standings.iter().all(|&number| met.contains(&("standing", number))));
}

#[test]
fn a_script_asks_for_every_phrase_and_every_room() {
    let mut phrases = BTreeSet::new();
    let mut rooms = BTreeSet::new();
    for (_, call) in (0..SCRIPT).map(|nth| call(7, nth)) {
        match call {
            PanelCall::First(call) => rooms.insert(("first", call.room)),
            PanelCall::Member(call) => rooms.insert(("member", call.room)),
            PanelCall::Phrase(call) => {
                if call.room >= 80 {
                    phrases.insert(call.refusal);
                }
                rooms.insert(("phrase", call.room))
            }
            _ => false,
        };
    }
    assert!((0..=100).all(|number| phrases.contains(&number)));
    assert!(edge_refusals().iter().all(|number| phrases.contains(number)));
    let all = ["first", "member", "phrase"].into_iter().flat_map(|door| ROOMS.map(|room| (door, room)));
    assert_eq!(rooms, all.collect());
}

/// Each key, in the same and in another book and requirement, at every number of members, from the first page, the
/// last, past it, and between.
#[test]
fn a_script_steps_everywhere() {
    let mut met = BTreeSet::new();
    let mut words = BTreeSet::new();
    for (_, call) in (0..SCRIPT).map(|nth| call(7, nth)) {
        let PanelCall::Step(call) = call else { continue };
        let [book, requirement, page] = call.record;
        let from = match page {
            0 => "first",
            page if page > call.members => "past",
            page if page == call.members => "last",
            _ => "between",
        };
        let place = (call.book == book, call.requirement == requirement);
        met.insert((call.key.min(4), place, call.members, from));
        words.insert((call.words, call.key > 3));
    }
    for members in MEMBERS {
        for place in [(true, true), (true, false), (false, true), (false, false)] {
            for (key, from) in (0..4).flat_map(|key| ["first", "last", "past"].map(|from| (key, from))) {
                let none = from == "past" && members == u32::MAX || from == "last" && members == 0;
                assert!(
                    none || met.contains(&(key, place, members, from)),
                    "{key} {place:?} {members} {from}"
                );
            }
        }
    }
    assert_eq!(words.len(), 10);
}

/// A folder of this test's own.
fn folder(name: &str) -> PathBuf {
    let folder = PathBuf::from(env!("CARGO_TARGET_TMPDIR")).join(format!("panels-{name}"));
    fs::create_dir_all(&folder).expect("a folder");
    folder
}

/// Files of a folder with these bytes.
fn files(name: &str, books: &[Vec<u8>]) -> Vec<OsString> {
    let file = |(place, bytes): (usize, &Vec<u8>)| {
        let path = folder(name).join(format!("{place}.book"));
        fs::write(&path, bytes).expect("room");
        path.into_os_string()
    };
    books.iter().enumerate().map(file).collect()
}

/// What is printed for these keys.
fn screens(names: &[OsString], keys: &[u8]) -> Vec<String> {
    let mut all = Vec::new();
    watch(names, keys.iter().copied(), |screen| {
        all.push(String::from_utf8(printed(screen, false)).expect("text"));
        Ok(())
    })
    .expect("no output fails");
    assert!(all.iter().all(|screen| screen.len() == 84));
    all
}

/// The first lines of the screens for these keys.
fn heads(names: &[OsString], keys: &[u8]) -> Vec<String> {
    screens(names, keys).iter().map(|screen| screen[..20].trim_end().to_string()).collect()
}

#[test]
fn the_paper_s_book_is_watched() {
    let names = files("paper", &[to_bytes(&listing_book())]);
    let pages = [0, 1, 2, 3, 3, 2, 1, 0, 0, 1, 0, 0, 0, 0];
    let expected: Vec<String> = pages.iter().map(|&page| paper_screen(page)).collect();
    assert_eq!(screens(&names, b"nnnnppppnhrRbq"), expected);
}

#[test]
fn other_bytes_show_nothing_and_q_ends() {
    let names = files("others", &[to_bytes(&listing_book())]);
    let others: Vec<u8> = (0..=255).filter(|byte| !b"nphrRbq".contains(byte)).collect();
    assert_eq!(screens(&names, &others), [paper_screen(0)]);
    assert_eq!(screens(&names, b""), [paper_screen(0)]);
    assert_eq!(screens(&names, b"q"), [paper_screen(0)]);
    assert_eq!(screens(&names, b"qn"), [paper_screen(0)]);
    assert_eq!(screens(&names, b"N\nnqnn"), [paper_screen(0), paper_screen(1)]);
}

/// The paper's book with a second requirement, number 5, lower, for region 1.
fn two_requirements() -> Book {
    let mut book = listing_book();
    book.requirements.push(base_requirement(5, 2, Direction::Lower));
    book
}

#[test]
fn between_requirements_the_page_goes_home() {
    let names = files("requirements", &[to_bytes(&two_requirements())]);
    let expected = [
        "req 1 raise",
        "unit 1          live",
        "unit 2          live",
        "req 5 lower",
        "residual     default",
        "residual     default",
        "residual     default",
        "req 1 raise",
        "unit 1          live",
        "unit 1          live",
    ];
    assert_eq!(heads(&names, b"nnrnnrRnR"), expected);
}

/// A book sent again is another book; on the last one `b` stays with its requirement and its page.
#[test]
fn between_books_the_page_goes_home() {
    let book = to_bytes(&two_requirements());
    let names = files("again", &[book.clone(), book]);
    let expected = [
        "req 1 raise",
        "req 5 lower",
        "residual     default",
        "req 1 raise",
        "unit 1          live",
        "unit 1          live",
        "req 5 lower",
        "req 5 lower",
        "residual     default",
        "residual     default",
    ];
    assert_eq!(heads(&names, b"rnbnbrbnb"), expected);
}

#[test]
fn a_refused_book_has_one_screen() {
    let whole = to_bytes(&listing_book());
    let longer = [&whole[..], &[0]].concat();
    let names = files("refused", &[longer, whole]);
    let refused = screen_of_phrase("bytes after the end");
    let mut expected = vec![refused; 6];
    expected.extend([paper_screen(0), paper_screen(1)]);
    assert_eq!(screens(&names, b"nphrRbn"), expected);
    assert_eq!(screens(&names[..1], b"bb"), vec![screen_of_phrase("bytes after the end"); 3]);
}

#[test]
fn a_book_that_is_not_there_ends_too_early() {
    let mut names = files("missing", &[Vec::new(), to_bytes(&listing_book())]);
    names.insert(0, folder("missing").join("none.book").into_os_string());
    names.insert(1, folder("missing").into_os_string());
    let early = screen_of_phrase("ends too early");
    assert_eq!(screens(&names, b"bbb"), [early.clone(), early.clone(), early, paper_screen(0)]);
}

/// A roster of none: the first page and the residual's.
#[test]
fn a_book_without_units_has_two_pages() {
    let book = make(4, "plain", Some(0)).expect("a class");
    let names = files("none", &[to_bytes(&book)]);
    let all = screens(&names, b"nnp");
    assert!(all[0].starts_with("req ") && all[1].starts_with("residual"));
    assert_eq!((&all[2], &all[3]), (&all[1], &all[0]));
}

#[test]
fn the_arguments() {
    let words = |words: &[&str]| words.iter().map(OsString::from).collect::<Vec<_>>();
    let said = |list: &[&str]| {
        let all = words(list);
        arguments(&all).map(|(live, names)| (live, names.to_vec()))
    };
    assert_eq!(said(&[]), None);
    assert_eq!(said(&["live"]), None);
    assert_eq!(said(&["a"]), Some((false, words(&["a"]))));
    assert_eq!(said(&["live", "a", "b"]), Some((true, words(&["a", "b"]))));
    assert_eq!(said(&["a", "live"]), Some((false, words(&["a", "live"]))));
    assert_eq!(said(&["live", "live"]), Some((true, words(&["live"]))));
}

/// The words of a listing as the pages of its requirements, with the costs of the book.
fn pages_by_listing(book: &Book) -> Vec<Vec<String>> {
    let listing = settle(&to_bytes(book));
    let mut costs = book.requirements.iter().map(|requirement| requirement.cost.to_string());
    let mut all: Vec<Vec<String>> = Vec::new();
    for line in listing.lines().skip(1) {
        let words: Vec<&str> = line.split(' ').collect();
        let text = match words[..] {
            ["requirement", number, direction, rcr, pool, ..] => {
                all.push(Vec::new());
                let head = format!("req {number} {direction}");
                let cost = costs.next().expect("a cost");
                format!("{head:<20}RCR {rcr:>16}POOL{pool:>16}COST{cost:>16}")
            }
            ["unit", number, standing, _, _, payment, used, unused] => {
                let head = format!("unit {number:<15}");
                let head = format!("{}{standing}", &head[..20 - standing.len()]);
                format!("{head}PAY {payment:>16}USED{used:>16}IDLE{unused:>16}")
            }
            ["residual", standing, _, _, payment, used, unused] => {
                format!("residual{standing:>12}PAY {payment:>16}USED{used:>16}IDLE{unused:>16}")
            }
            _ => panic!("{line}"),
        };
        all.last_mut().expect("a requirement").push(text);
    }
    all
}

/// The pages of whole books show what the listing has, in its order.
#[test]
fn pages_are_the_listing_s() {
    let made = CLASSES.iter().enumerate().map(|(seed, (class, _))| {
        make(seed as u64, class, Some([5, 0, 13, 1, 40][seed % 5])).expect("a class")
    });
    let worked = worked::all().into_iter().filter_map(|worked| read_book(&worked.bytes()).ok());
    let mut met = 0;
    for book in made.chain(worked) {
        assert_eq!(pages_of(&book), pages_by_listing(&book));
        met += 1;
    }
    assert!(met > 40, "{met}");
}

/// Every page of every requirement is reached, and the next key stays.
#[test]
fn watch_goes_through_all_pages() {
    let book = make(11, "sets", Some(13)).expect("a class");
    let names = files("all", &[to_bytes(&book)]);
    let all = pages_of(&book);
    let mut keys = Vec::new();
    let mut expected = Vec::new();
    for pages in &all {
        keys.extend(vec![b'n'; pages.len()]);
        keys.push(b'r');
        expected.extend(pages);
        expected.extend(pages.last());
    }
    expected.extend(all.last().and_then(|pages| pages.last()));
    let mut shown = screens(&names, &keys);
    shown.iter_mut().for_each(|screen| screen.retain(|letter| letter != '\n'));
    assert_eq!(shown.iter().collect::<Vec<_>>(), expected);
}

/// The program with these words and keys.
fn program(words: &[OsString], keys: &[u8]) -> Output {
    let mut child = Command::new(env!("CARGO_BIN_EXE_watch"))
        .args(words)
        .stdin(Stdio::piped())
        .stdout(Stdio::piped())
        .stderr(Stdio::piped())
        .spawn()
        .expect("the program");
    // It may have ended before it reads a key.
    let _ = child.stdin.take().expect("a pipe").write_all(keys);
    child.wait_with_output().expect("an end")
}

#[test]
fn the_program_prints_screens() {
    let names = files("program", &[to_bytes(&listing_book())]);
    let out = program(&names, b"n.nq");
    assert_eq!(out.stdout, [paper_screen(0), paper_screen(1), paper_screen(2)].concat().as_bytes());
    assert!(out.stderr.is_empty());
    let out = program(&[&[OsString::from("live")], &names[..]].concat(), b"n");
    let expected = format!("\x1b[2J\x1b[H{}\x1b[2J\x1b[H{}", paper_screen(0), paper_screen(1));
    assert_eq!(out.stdout, expected.as_bytes());
    assert_eq!(out.stdout.len(), 2 * 91);
}

#[test]
fn the_program_needs_a_book() {
    for words in [vec![], vec![OsString::from("live")]] {
        let out = program(&words, b"nq");
        assert!(out.stdout.is_empty());
        assert_eq!(String::from_utf8_lossy(&out.stderr).lines().count(), 1);
        assert!(out.stderr.ends_with(b"\n"));
    }
}

/// A screen comes before the next key is asked for.
#[test]
fn the_program_shows_before_it_reads() {
    let names = files("slow", &[to_bytes(&listing_book())]);
    let mut child = Command::new(env!("CARGO_BIN_EXE_watch"))
        .args(&names)
        .stdin(Stdio::piped())
        .stdout(Stdio::piped())
        .spawn()
        .expect("the program");
    let (mut keys, mut out) = (child.stdin.take().expect("a pipe"), child.stdout.take().expect("a pipe"));
    for (page, key) in [(0, b'n'), (1, b'n'), (2, b'q')] {
        let mut screen = [0; 84];
        out.read_exact(&mut screen).expect("a screen");
        assert_eq!(screen, paper_screen(page).as_bytes());
        keys.write_all(&[key]).expect("a reader");
    }
    assert_eq!(out.read(&mut [0]).expect("an end"), 0);
    child.wait().expect("an end");
}

/// The runs of so many books.
fn runs(books: u64) -> Vec<Run> {
    let mut all = Vec::new();
    let mut first = 0;
    while first < books {
        all.push(run(7, first, books - first, 200));
        first += all.last().map_or(0, |run| run.books.len() as u64);
    }
    all
}

#[test]
fn runs_are_of_every_sort() {
    let runs = runs(600);
    assert_eq!(runs.iter().map(|run| run.books.len()).sum::<usize>(), 600);
    let lengths: BTreeSet<usize> = runs.iter().map(|run| run.books.len()).collect();
    assert_eq!(lengths, BTreeSet::from([1, 2, 3, 4]));
    let some = |of: &dyn Fn(&Run) -> bool| runs.iter().any(of) && !runs.iter().all(of);
    assert!(some(&|run| run.live));
    assert!(some(&|run| run.keys.ends_with(b"q")));
    assert!(some(&|run| run.keys.contains(&b'q')));
    let ends = |run: &Run| run.keys.iter().position(|&key| key == b'q');
    assert!(some(&|run| ends(run).is_some_and(|place| place + 1 < run.keys.len())));
    assert!(some(&|run| ends(run).is_some_and(|place| place + 50 < run.keys.len())));
    assert!(some(&|run| run.books.windows(2).any(|pair| pair[0] == pair[1])));
    let refused = runs.iter().flat_map(|run| &run.books).filter(|bytes| read_book(bytes).is_err()).count();
    assert!((60..180).contains(&refused), "{refused}");
    for key in *b"nphrRb" {
        assert!(runs.iter().filter(|run| run.keys.contains(&key)).count() > runs.len() / 2);
    }
}

/// First pages, members of each sort, and every phrase that a book can have.
#[test]
fn runs_show_every_sort_of_screen() {
    let mut met = BTreeSet::new();
    for run in runs(600) {
        let names = files("runs", &run.books);
        watch(&names, run.keys.iter().copied(), |screen| {
            met.insert(format!("{:?}", screen.sort));
            Ok(())
        })
        .expect("no output fails");
    }
    let refusals = [1, 2, 3, 4, 5, 6, 9, 10, 16, 71, 81];
    let phrases = refusals.map(|number| format!("{:?}", Sort::Phrase(phrase(number))));
    let member = |live, residual, group| format!("{:?}", Sort::Member { live, residual, group });
    let mut expected: BTreeSet<String> = phrases.into_iter().chain([format!("{:?}", Sort::First)]).collect();
    for live in [true, false] {
        expected.extend([member(live, false, false), member(live, true, false), member(live, false, true)]);
    }
    assert_eq!(met, expected);
}

#[test]
fn keys_by_hand_are_plain() {
    for count in [0, 1, 7, 200, 5_000] {
        let keys = plain_keys(3, count);
        assert_eq!(keys.len(), count);
        assert!(keys.iter().all(|&key| key != b'q' && (b' '..=b'~').contains(&key)));
    }
    assert!(b"nphrRb".iter().all(|key| plain_keys(3, 5_000).contains(key)));
    assert_ne!(plain_keys(3, 200), plain_keys(4, 200));
}

#[test]
fn odd_runs_are_of_every_word() {
    let all = odd_runs();
    assert!(all.iter().any(|(words, _)| words.is_empty()));
    assert!(all.iter().any(|(words, _)| words == &[Word::Live]));
    for word in [Word::Whole, Word::Refused, Word::Empty, Word::Missing, Word::Folder] {
        assert!(all.iter().any(|(words, _)| words == &[word]));
    }
}
