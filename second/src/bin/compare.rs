//! `compare BOOKS [FIRST_SEED]`: makes and damages books, tests the invariants on
//! the second program, and compares its output byte for byte with the library's
//! `settle`, where that is built. A difference is kept under target/differences.
//! Run from the top of the repository, see tests/compare.

use std::collections::{BTreeMap, BTreeSet};
use std::fs;
use std::path::Path;
use std::process::ExitCode;

use second::book::{read_book, Book, Refusal};
use second::cents::settle_book;
use second::chance::Chance;
use second::library::{announcement, library_command, library_output};
use second::listing::write_listing;
use second::{damage, groups, invariants, make, rules, write};

const DIFFERENCES: &str = "target/differences";
/// What a book can be refused with.
const NUMBERS: [u8; 17] = [1, 2, 3, 4, 5, 6, 71, 72, 73, 74, 81, 82, 83, 84, 9, 16, 10];

/// A book to try, and how to make it again.
struct Trial {
    name: String,
    bytes: Vec<u8>,
    whole: bool,
}

/// The class of a turn, and whether its book is left whole. Of eight books two are damaged ones of all classes; three are
/// whole ones in which both the rules of the share and those of performance differ, one is of the other classes made for
/// the share, one of the other classes made for dropped points, and one of all that is left.
fn class_of(turn: u64) -> (&'static str, bool) {
    let nth = turn as usize / 8;
    let of = |classes: &[&'static str]| classes[nth % classes.len()];
    match turn % 8 {
        0 => (of(&make::others()), true),
        4 => (of(&["swings", "band", "runs", "patchy"]), true),
        3 => (of(&["standins", "unequal"]), true),
        2 | 6 | 7 => ("keptties", true),
        _ => (make::CLASSES[turn as usize / 4 % make::CLASSES.len()].0, false),
    }
}

/// A large roster comes about once in sixteen.
fn trial(turn: u64) -> Trial {
    let (class, whole) = class_of(turn);
    let with_units = make::UNEQUAL.contains(&class) || make::DROPPING.contains(&class);
    let large = [76, 477, 509, 511, 512];
    // A residual alone ties with nobody, and has no performance.
    let small = if whole && with_units { [6, 1, 5, 7, 13, 2, 3] } else { [0, 1, 5, 7, 13, 2, 3] };
    let spread = turn.wrapping_mul(0x9E37_79B9_7F4A_7C15) >> 32;
    let roster = if spread.is_multiple_of(16) {
        large[(spread / 16 % large.len() as u64) as usize]
    } else {
        small[(spread / 16 % small.len() as u64) as usize]
    };
    let (book, of) = trial_book(turn, class, roster);
    let bytes = write::to_bytes(&book);
    if whole {
        Trial { name: format!("{turn}-{class}-{of}"), bytes, whole }
    } else {
        let bytes = damage::damage(turn, &bytes);
        Trial { name: format!("{turn}-{class}-{of}-damaged"), bytes, whole }
    }
}

/// The book of a turn, and how many units it has. Of sixteen turns eight cut the book's units into groups, which leaves its figures as they
/// were: then it is made of fewer units, and told by both numbers.
fn trial_book(turn: u64, class: &str, roster: usize) -> (Book, String) {
    let made = |units: usize| make::make(turn, class, Some(units)).expect("a class of the list");
    let is_cut = turn / 8 % 2 == 1 && !make::GROUPED.contains(&class);
    if !is_cut {
        return (made(roster), roster.to_string());
    }
    let mut chance = Chance::new(turn);
    let members = if roster > 13 { chance.pick(&[1, 2, 5, 13, 76, roster]) } else { roster };
    let units = if roster > 13 { roster } else { roster + chance.pick(&[1, 1, 2, 5, 7, 13]) };
    let (book, _) = groups::cut(&mut chance, &made(members), units);
    (book, format!("{members}-in-{units}"))
}

/// What a program has to print for a book, the shares in which the rule before request R-9 would differ, whether the
/// rule of performance before request R-3 would, whether its groups show, and what the book is refused with.
struct Expected {
    output: String,
    shares: BTreeSet<(&'static str, &'static str)>,
    dropping_tells: bool,
    grouping_tells: bool,
    refusal: Option<Refusal>,
}

/// The second program's output, with its invariants tested on the way.
fn second_output(trial: &Trial, turn: u64) -> Result<Expected, String> {
    let settled = read_book(&trial.bytes).and_then(|book| Ok((settle_book(&book)?, book)));
    match settled {
        Ok((all, book)) => {
            if write::to_bytes(&book) != trial.bytes {
                return Err("the book read is not the book given".to_string());
            }
            invariants::check(&book, &all)?;
            invariants::splits_close(&book, &all, turn as usize)?;
            let output = write_listing(book.settings.interval, &all);
            let dropping_tells = rules::dropping_tells(&book, &all);
            let grouping_tells = rules::grouping_tells(&book, &all);
            let shares = rules::shares_of(&all);
            Ok(Expected { output, shares, dropping_tells, grouping_tells, refusal: None })
        }
        Err(refusal) if trial.whole => Err(format!("a made book is refused {refusal}")),
        Err(refusal) if !NUMBERS.contains(&refusal.number) => Err(format!("refused {refusal}")),
        Err(refusal) => {
            let output = format!("refused {refusal}\n");
            let (shares, refusal) = (BTreeSet::new(), Some(refusal));
            Ok(Expected { output, shares, dropping_tells: false, grouping_tells: false, refusal })
        }
    }
}

fn keep(name: &str, ending: &str, bytes: &[u8]) {
    let path = format!("{DIFFERENCES}/{name}.{ending}");
    fs::write(&path, bytes).expect("a place for differences");
    println!("kept {path}");
}

/// One book through both programs: what the second program said, or what is wrong.
fn try_book(
    trial: &Trial,
    turn: u64,
    command: Option<&[String]>,
    scratch: &Path,
) -> Result<Expected, String> {
    let ours = std::panic::catch_unwind(|| second_output(trial, turn))
        .unwrap_or_else(|_| Err("the second program crashed".to_string()))?;
    if let Some(command) = command {
        let theirs = library_output(command, &trial.bytes, scratch)?;
        if theirs != ours.output.as_bytes() {
            keep(&trial.name, "second", ours.output.as_bytes());
            keep(&trial.name, "library", &theirs);
            return Err("the outputs differ".to_string());
        }
    }
    Ok(ours)
}

/// Each number with how many of these refusals have it; numbers that none has are left out.
fn by_number(refusals: &[Refusal], of: impl Fn(&Refusal) -> bool) -> String {
    let count =
        |number: u8| refusals.iter().filter(|refusal| refusal.number == number && of(refusal)).count();
    let counted = NUMBERS.into_iter().map(|number| (number, count(number))).filter(|&(_, count)| count > 0);
    counted.map(|(number, count)| format!("{number}: {count}")).collect::<Vec<_>>().join(", ")
}

/// How many different t these refusals of a number name.
fn different_ts(refusals: &[Refusal], number: u8) -> usize {
    let of = refusals.iter().filter(|refusal| refusal.number == number);
    of.map(|refusal| refusal.t).collect::<BTreeSet<_>>().len()
}

/// What the damaged books were refused with, and where.
fn say_refusals(refusals: &[Refusal]) {
    println!("  damaged books refused: {}; in all {}", by_number(refusals, |_| true), refusals.len());
    println!(
        "    of them at a place above 1: {}; with t above 1: {}; different t: 74: {}, 84: {}",
        by_number(refusals, |refusal| refusal.place > 1),
        by_number(refusals, |refusal| refusal.t > 1),
        different_ts(refusals, 74),
        different_ts(refusals, 84)
    );
}

fn main() -> ExitCode {
    let mut words = std::env::args().skip(1);
    let books: u64 =
        words.next().map_or(400, |word| word.parse().expect("usage: compare BOOKS [FIRST_SEED]"));
    let first: u64 = words.next().map_or(0, |word| word.parse().expect("usage: compare BOOKS [FIRST_SEED]"));
    fs::create_dir_all(DIFFERENCES).expect("run from the top of the repository");
    let scratch = Path::new(DIFFERENCES).join(format!("in-work-{}", std::process::id()));
    let command = library_command("settle");
    println!("{}", announcement(command.as_deref()));
    let mut refusals: Vec<Refusal> = Vec::new();
    let mut listings = 0;
    let mut shares: BTreeMap<(&str, &str), u64> = BTreeMap::new();
    let (mut told_apart, mut grouping) = (0, 0);
    // Whole books, those of them that drop points with a difference, and damaged ones that do.
    let (mut whole, mut whole_dropping, mut damaged_dropping) = (0, 0, 0);
    let (mut passed, mut failed) = (0, 0);
    for turn in first..first + books {
        let trial = trial(turn);
        match try_book(&trial, turn, command.as_deref(), &scratch) {
            Ok(expected) => {
                listings += u64::from(expected.refusal.is_none());
                refusals.extend(expected.refusal);
                told_apart += u64::from(!expected.shares.is_empty());
                grouping += u64::from(expected.grouping_tells);
                whole += u64::from(trial.whole);
                whole_dropping += u64::from(trial.whole && expected.dropping_tells);
                damaged_dropping += u64::from(!trial.whole && expected.dropping_tells);
                for share in expected.shares {
                    *shares.entry(share).or_default() += 1;
                }
                passed += 1;
            }
            Err(what) => {
                keep(&trial.name, "book", &trial.bytes);
                println!("FAILED {}: {what}", trial.name);
                failed += 1;
            }
        }
    }
    let _ = fs::remove_file(&scratch);
    println!("  listings: {listings}");
    println!("  listings that the rule before request R-9 would give otherwise: {told_apart}");
    for ((share, direction), count) in &shares {
        println!("    {share}, {direction}: {count}");
    }
    let dropping = whole_dropping + damaged_dropping;
    println!("  listings that the rule before request R-3 would give otherwise: {dropping}");
    println!("    of {whole} whole books: {whole_dropping}");
    println!("  listings that units without their groups would give otherwise: {grouping}");
    say_refusals(&refusals);
    println!("compare: {passed} passed, {failed} failed");
    if failed == 0 {
        ExitCode::SUCCESS
    } else {
        ExitCode::FAILURE
    }
}
