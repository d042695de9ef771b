//! The numbers that the program says no with: which there are, and that 7, 8 and 13 are not among them.

use std::collections::BTreeSet;
use std::fs;
use std::path::Path;

use second::boundary::Caller;
use second::damage::damage;
use second::doors::Doors;
use second::lines;
use second::listing::settle;
use second::make::{make, CLASSES};
use second::records::{record_line, share_line};
use second::replay::replay;
use second::report_lines::ReportDoors;
use second::report_script;
use second::script::Script;
use second::week_books::trial;
use second::week_script::write_script;
use second::write::to_bytes;
use second::{panel_door, panel_script};

/// Without 13, which request R-10 took away, and 7 and 8, which request R-1 split: none of them is given again.
const NUMBERS: [u8; 23] =
    [1, 2, 3, 4, 5, 6, 71, 72, 73, 74, 81, 82, 83, 84, 9, 10, 11, 12, 14, 15, 16, 17, 18];

/// The number of a line `refused N ...`.
fn refused(answer: &str) -> Option<u8> {
    let mut words = answer.strip_prefix("refused ")?.split_whitespace();
    Some(words.next().expect("a number").parse().expect("a number"))
}

/// The number of a call's line `KIND REPLY ...`.
fn replied(answer: &str) -> Option<u8> {
    let reply = answer.split(' ').nth(1).expect("a reply").parse().expect("a number");
    (reply != 0).then_some(reply)
}

fn of_books() -> BTreeSet<u8> {
    let damaged = |seed: u64| {
        let (class, _) = CLASSES[seed as usize % CLASSES.len()];
        let bytes = to_bytes(&make(seed, class, Some(seed as usize % 8)).expect("a class"));
        refused(&settle(&damage(seed, &bytes)))
    };
    (0..1_500).filter_map(damaged).collect()
}

fn of_shares() -> BTreeSet<u8> {
    (0..9_000).filter_map(|nth| refused(&share_line(&lines::share(7, nth)))).collect()
}

fn of_records() -> BTreeSet<u8> {
    let kinds = ["contents", "settings", "frequency", "unit", "requirement"];
    let lines = kinds.iter().flat_map(|kind| (0..1_000).map(move |nth| lines::record(kind, 7, nth)));
    lines.filter_map(|line| refused(&record_line(&line))).collect()
}

fn of_calls() -> BTreeSet<u8> {
    let mut script = Vec::new();
    Script::new(7, true, &mut script).write(3_000);
    let mut caller = Caller::default();
    let script = String::from_utf8(script).expect("words");
    let answers = script.lines().filter_map(|line| caller.line(line));
    answers.filter_map(|answer| replied(&answer)).collect()
}

fn of_weeks() -> BTreeSet<u8> {
    let mut script = Vec::new();
    write_script(2_000, 7, &mut script).expect("room");
    let mut doors = Doors::default();
    let script = String::from_utf8(script).expect("words");
    let answers = script.lines().map(|line| doors.line(line)).filter(|answer| !answer.starts_with("keep"));
    answers.filter_map(|answer| replied(&answer)).collect()
}

fn of_weeks_of_books() -> BTreeSet<u8> {
    (0..600).filter_map(|turn| refused(&replay(&trial(7, turn).bytes).0)).collect()
}

fn of_reports() -> BTreeSet<u8> {
    let mut doors = ReportDoors::default();
    let answers = report_script::script(3_000, 7).map(|(_, line)| doors.answer(&line));
    answers.filter_map(|answer| replied(&answer)).collect()
}

fn of_panels() -> BTreeSet<u8> {
    let answers = (0..1_000).map(|nth| panel_door::answer(&panel_script::call(7, nth).1));
    answers.filter_map(|answer| replied(&answer)).collect()
}

#[test]
fn panels_are_refused_with_11_and_12_alone() {
    assert_eq!(of_panels(), BTreeSet::from([11, 12]));
}

#[test]
fn shares_are_refused_with_5_alone() {
    assert_eq!(of_shares(), BTreeSet::from([5]));
}

/// All that the program answers with, together: each number is met, and no other.
#[test]
fn these_numbers_are_met() {
    let all = [of_books(), of_shares(), of_records(), of_calls(), of_weeks(), of_weeks_of_books()];
    let met: BTreeSet<u8> = all.into_iter().chain([of_reports(), of_panels()]).flatten().collect();
    assert_eq!(met, BTreeSet::from(NUMBERS));
}

/// The text of every file under a directory.
fn sources(directory: &Path) -> String {
    let mut text = String::new();
    for entry in fs::read_dir(directory).expect("a directory") {
        let path = entry.expect("an entry").path();
        if path.is_dir() {
            text.push_str(&sources(&path));
        } else {
            text.push_str(&fs::read_to_string(&path).expect("a source"));
        }
    }
    text
}

/// What stands between the brackets of each `NAME(...)`.
fn calls_of<'a>(text: &'a str, name: &str) -> Vec<&'a str> {
    let within = |(at, _): (usize, &str)| {
        let rest = &text[at + name.len() + 1..];
        let mut depth = 1;
        let closes = |&(_, letter): &(usize, char)| {
            depth += i32::from(letter == '(') - i32::from(letter == ')');
            depth == 0
        };
        let (end, _) = rest.char_indices().find(closes).expect("a closing bracket");
        &rest[..end]
    };
    text.match_indices(&format!("{name}(")).map(within).collect()
}

/// A refusal is made where its number is written, or by a `require` or `require_points` with its number last
/// (`Refusal::of(number)` is their inside): so these are all that can be given, met by a test or not. The makers of
/// trials say by `refused` what is expected, and make none.
#[test]
fn no_other_number_stands_in_the_sources() {
    let text = sources(&Path::new(env!("CARGO_MANIFEST_DIR")).join("src"));
    let mut written = BTreeSet::new();
    for made in calls_of(&text, "Refusal::of").into_iter().filter(|made| *made != "number") {
        written.insert(made.parse().unwrap_or_else(|_| panic!("Refusal::of({made})")));
    }
    for name in ["require", "require_points"] {
        for required in calls_of(&text, name).into_iter().filter(|made| !made.ends_with("number: u8")) {
            let arguments = required.trim_end().trim_end_matches(',');
            let number: Option<u8> = arguments.rsplit(',').next().and_then(|last| last.trim().parse().ok());
            written.insert(number.unwrap_or_else(|| panic!("{name}({required})")));
        }
    }
    // The refusal itself, its three ways to be made, and what a trial expects.
    let literals = text.matches("Refusal {").count();
    let known = ["struct Refusal {", "impl Refusal {", "for Refusal {", "-> Refusal {", "let Refusal {"];
    let known: usize = known.iter().map(|form| text.matches(form).count()).sum();
    assert_eq!(literals - known, 4, "a refusal is made elsewhere");
    assert_eq!(written, BTreeSet::from(NUMBERS));
}
