//! `sheets script COUNT [SEED]`: so many sheets, two lines each; `sheets model`: reads such lines in pairs and says of
//! each sheet what `sheet` prints; `sheets counts COUNT [SEED]`: how many sheets of the script have which answer;
//! `sheets compare COUNT [SEED]`: sheets and books through the second program's `sheet` and the library's, byte for
//! byte (a difference is kept under target/differences; run from the top of the repository).

use std::collections::BTreeMap;
use std::fs;
use std::io::{BufRead, BufWriter, Write};
use std::path::{Path, PathBuf};
use std::process::ExitCode;

use second::library::{announcement, library_command, library_outputs};
use second::sheet_script::{earlier_factors, own_factors, sheet, write_sheets};
use second::sheet_text::{of_text, two_lines};
use second::sheet_trials::{known_trials, odd_sheet, plain_sheet, sheet_of_a_book, SheetTrial};

const USAGE: &str = "usage: sheets script COUNT [SEED] | sheets model | sheets counts COUNT [SEED] | sheets compare COUNT [SEED]";
const DIFFERENCES: &str = "target/differences";
const COUNT: u64 = 2_000;
const SEED: u64 = 2_026;

/// Lengths that are counted: around every edge, and the rosters that books are made of.
const LENGTHS: [usize; 13] = [0, 1, 2, 5, 7, 13, 76, 477, 509, 511, 512, 513, 514];

/// Of so many sheets one goes through the programs as it is, one in odd writing, one with a book.
const PLAIN_ONE_IN: u64 = 4;
const ODD_ONE_IN: u64 = 10;
const BOOK_ONE_IN: u64 = 10;

fn keep(name: &str, ending: &str, bytes: &[u8]) {
    let path = format!("{DIFFERENCES}/{name}.{ending}");
    fs::write(&path, bytes).expect("a place for differences");
    println!("kept {path}");
}

/// An answer without what is particular to one sheet.
fn outcome_of(printed: &str) -> String {
    match printed.split_whitespace().collect::<Vec<_>>()[..] {
        ["wrong", "member", _] => "wrong member".to_string(),
        ["wrong", "member", _, "residual"] => "wrong member, residual".to_string(),
        ["wrong", "member", _, "unit", _] => "wrong member, unit".to_string(),
        ["no", "requirement", _] => "no requirement".to_string(),
        ["refused", number, _, _] => format!("refused {number}"),
        _ => printed.trim_end().to_string(),
    }
}

/// The library's program, and where its input and its book are put.
struct Library {
    command: Option<Vec<String>>,
    input: PathBuf,
    book: PathBuf,
}

impl Library {
    fn outputs(&self, trial: &SheetTrial) -> Option<Result<[Vec<u8>; 2], String>> {
        let mut command = self.command.clone()?;
        if let Some(book) = &trial.book {
            fs::write(&self.book, &book.bytes).expect("a place for the book");
            command.extend([self.book.display().to_string(), book.requirement.to_string()]);
        }
        Some(library_outputs(&command, &trial.text, &self.input))
    }

    /// One run through both programs: what the second program printed, or what is wrong.
    fn try_sheet(&self, trial: &SheetTrial) -> Result<String, String> {
        let printed = std::panic::catch_unwind(|| trial.printed())
            .map_err(|_| "the second program crashed".to_string())?;
        if let Some(theirs) = self.outputs(trial) {
            let [theirs, said] = theirs?;
            if theirs != printed.as_bytes() || !said.is_empty() {
                keep(&trial.name, "second", printed.as_bytes());
                keep(&trial.name, "library", &[theirs, said].concat());
                return Err("the outputs differ".to_string());
            }
        }
        Ok(printed)
    }

    /// Runs of one sort, counted by their outcome; how many passed and how many failed.
    fn try_all(&self, what: &str, trials: impl Iterator<Item = SheetTrial>) -> [u64; 2] {
        let mut outcomes: BTreeMap<String, u64> = BTreeMap::new();
        let mut failed = 0_u64;
        for trial in trials {
            match self.try_sheet(&trial) {
                Ok(printed) => *outcomes.entry(outcome_of(&printed)).or_default() += 1,
                Err(why) => {
                    keep(&trial.name, "sheet", &trial.text);
                    if let Some(book) = &trial.book {
                        keep(&trial.name, "book", &book.bytes);
                    }
                    println!("FAILED {}: {why}", trial.name);
                    failed += 1;
                }
            }
        }
        for (outcome, count) in &outcomes {
            println!("  {outcome}: {count}");
        }
        let passed = outcomes.values().sum();
        println!("{what}: {passed} passed, {failed} failed");
        [passed, failed]
    }
}

/// Sheets and books through both programs; whether all of them agree.
fn compare(count: u64, seed: u64) -> bool {
    fs::create_dir_all(DIFFERENCES).expect("run from the top of the repository");
    let scratch = |ending| Path::new(DIFFERENCES).join(format!("in-work-{}{ending}", std::process::id()));
    let library = Library { command: library_command("sheet"), input: scratch(""), book: scratch(".book") };
    println!("{}", announcement(library.command.as_deref()));
    let all = [
        library.try_all("known sheets", known_trials().into_iter().map(|(trial, _)| trial)),
        library.try_all("sheets", (0..count.div_ceil(PLAIN_ONE_IN)).map(|nth| plain_sheet(seed, nth))),
        library.try_all(
            "sheets in odd writing",
            (0..count.div_ceil(ODD_ONE_IN)).map(|nth| odd_sheet(seed, nth)),
        ),
        library.try_all(
            "sheets of books",
            (0..count.div_ceil(BOOK_ONE_IN)).map(|nth| sheet_of_a_book(seed, nth)),
        ),
    ];
    let _ = fs::remove_file(&library.input);
    let _ = fs::remove_file(&library.book);
    let [passed, failed] = [0, 1].map(|place| all.iter().map(|sort| sort[place]).sum::<u64>());
    println!("sheets compare: {passed} passed, {failed} failed");
    failed == 0
}

fn model(out: &mut impl Write) -> std::io::Result<()> {
    let mut lines = std::io::stdin().lock().split(b'\n');
    while let Some(performances) = lines.next() {
        let factors = lines.next().unwrap_or(Ok(Vec::new()))?;
        out.write_all(two_lines(&performances?, &factors).as_bytes())?;
    }
    Ok(())
}

/// The answers of the script's sheets, all together and by kind, and what else they show.
fn counts(count: u64, seed: u64, out: &mut impl Write) -> std::io::Result<()> {
    let mut by_kind: BTreeMap<&str, BTreeMap<String, u64>> = BTreeMap::new();
    let mut all: BTreeMap<String, u64> = BTreeMap::new();
    let mut lengths: BTreeMap<usize, u64> = BTreeMap::new();
    let mut by_one_rule_alone = 0;
    for nth in 0..count {
        let (kind, sheet) = sheet(seed, nth);
        let answer = outcome_of(&of_text(sheet.text().as_bytes()));
        if answer == "possible" {
            let [now, before] = [own_factors, earlier_factors].map(|rule| rule(&sheet.performances));
            by_one_rule_alone += u64::from(now != before && [now, before].contains(&sheet.factors));
        }
        if LENGTHS.contains(&sheet.factors.len()) {
            *lengths.entry(sheet.factors.len()).or_default() += 1;
        }
        *all.entry(answer.clone()).or_default() += 1;
        *by_kind.entry(kind).or_default().entry(answer).or_default() += 1;
    }
    for (kind, answers) in &by_kind {
        let words: Vec<String> = answers.iter().map(|(answer, count)| format!("{answer} {count}")).collect();
        writeln!(out, "  {kind}: {}", words.join(", "))?;
    }
    let words: Vec<String> = lengths.iter().map(|(length, count)| format!("{length}: {count}")).collect();
    writeln!(out, "factors in a sheet: {}", words.join(", "))?;
    writeln!(out, "factors by one rule of the share and not by the other: {by_one_rule_alone}")?;
    for (answer, count) in &all {
        writeln!(out, "{answer}: {count}")?;
    }
    Ok(())
}

fn main() -> std::io::Result<ExitCode> {
    let words: Vec<String> = std::env::args().skip(1).collect();
    let number = |place: usize, otherwise: u64| -> u64 {
        words.get(place).map_or(otherwise, |word| word.parse().expect(USAGE))
    };
    let count = || number(1, COUNT);
    let seed = number(2, SEED);
    let mut out = BufWriter::new(std::io::stdout().lock());
    match words.first().map(String::as_str) {
        Some("script") => write_sheets(count(), seed, &mut out)?,
        Some("model") => model(&mut out)?,
        Some("counts") => counts(count(), seed, &mut out)?,
        Some("compare") => {
            drop(out);
            return Ok(if compare(count(), seed) { ExitCode::SUCCESS } else { ExitCode::FAILURE });
        }
        _ => panic!("{USAGE}"),
    }
    out.flush()?;
    Ok(ExitCode::SUCCESS)
}
