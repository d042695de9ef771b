//! `reports script COUNT [SEED]`: so many calls of the performance report's doors, a line each;
//! `reports changed ROWS [SEED]`: so many changed rows, as lines that read them; `reports dates
//! [FIRST LAST]`: the ends of all months of these years, as lines that write and read them;
//! `reports model`: reads such lines and says of each call what it replies and leaves; `reports
//! counts COUNT [SEED]`: how many lines of the script have which answer; `reports compare BOOKS
//! [SEED]`: books through the second program's `report` and the library's, their rows through both
//! `report_rows` (a difference is kept under target/differences; run from the top of the
//! repository, see tests/report).

use std::collections::BTreeMap;
use std::fs;
use std::io::{BufRead, BufWriter, Write};
use std::path::{Path, PathBuf};
use std::process::ExitCode;

use second::calendar::{FIRST_YEAR, LAST_YEAR};
use second::library::{library_command, library_outputs};
use second::report_lines::ReportDoors;
use second::report_script::{script, write_changed, write_dates, write_script};
use second::report_text::{report_printed, rows_printed, version_of};
use second::report_trials::*;

const USAGE: &str = "usage: reports script COUNT [SEED] | reports changed ROWS [SEED] \
    | reports dates [FIRST LAST] | reports model | reports counts COUNT [SEED] \
    | reports compare BOOKS [SEED]";
const DIFFERENCES: &str = "target/differences";
const COUNT: u64 = 20_000;
const SEED: u64 = 2_026;
/// So many bytes of rows are read by one run of `report_rows`.
const BATCH: usize = 1 << 20;
const ROWS_TRIALS: u64 = 300;

fn keep(name: &str, ending: &str, bytes: &[u8]) {
    let path = format!("{DIFFERENCES}/{name}.{ending}");
    fs::write(&path, bytes).expect("a place for differences");
    println!("kept {path}");
}

/// The library's programs, and where their input is put.
struct Library {
    report: Vec<String>,
    report_rows: Vec<String>,
    input: PathBuf,
}

/// A program of the library, or what is missing.
fn found(name: &str) -> Result<Vec<String>, String> {
    let missing = || {
        let variable = name.to_uppercase();
        format!("target/bin/{name} is not there (rt check {name}), and no command line in {variable}")
    };
    library_command(name).filter(|words| !words.is_empty()).ok_or_else(missing)
}

/// How many passed and how many failed, and what was met.
#[derive(Default)]
struct Tried {
    passed: u64,
    failed: u64,
    met: BTreeMap<String, u64>,
}

impl Tried {
    fn note(&mut self, what: &str, outcome: Result<(), String>) {
        match outcome {
            Ok(()) => self.passed += 1,
            Err(why) => {
                println!("FAILED {what}: {why}");
                self.failed += 1;
            }
        }
    }

    fn meet(&mut self, what: &str) {
        *self.met.entry(what.to_string()).or_default() += 1;
    }

    fn say(&self, title: &str) -> [u64; 2] {
        for (what, count) in &self.met {
            println!("  {what}: {count}");
        }
        println!("{title}: {} passed, {} failed", self.passed, self.failed);
        [self.passed, self.failed]
    }
}

/// What the rows of a report show, counted, or the refusal's number.
fn count_rows(text: &str, tried: &mut Tried) {
    for line in text.lines() {
        let columns: Vec<&str> = line.split(',').collect();
        match columns[..] {
            [_, unit, _, raise, _, lower, _] => {
                let whose = if unit.starts_with("Residual") { "residuals" } else { "units" };
                tried.meet(&format!("{whose}, {raise} and {lower}"));
            }
            _ => tried.meet(&line.split(' ').take(2).collect::<Vec<_>>().join(" ")),
        }
    }
}

impl Library {
    /// What a program prints has to be ours, and on standard error nothing is said.
    fn try_program(&self, command: &[String], bytes: &[u8], ours: &str, name: &str) -> Result<(), String> {
        let [theirs, said] = library_outputs(command, bytes, &self.input)?;
        if theirs == ours.as_bytes() && said.is_empty() {
            return Ok(());
        }
        keep(name, "input", bytes);
        keep(name, "second", ours.as_bytes());
        keep(name, "library", &[theirs, said].concat());
        Err(format!("the outputs differ: {}", command.join(" ")))
    }

    fn report_with(&self, words: &[&str]) -> Vec<String> {
        self.report.iter().cloned().chain(words.iter().map(|word| word.to_string())).collect()
    }

    /// A book through `report`; its text is returned.
    fn try_book(&self, trial: &ReportTrial) -> Result<String, String> {
        let words: Vec<String> = trial.version.iter().cloned().collect();
        let version = version_of(&words).ok_or("a version that is none")?;
        let ours = report_printed(&trial.bytes, version);
        let words: Vec<&str> = words.iter().map(String::as_str).collect();
        self.try_program(&self.report_with(&words), &trial.bytes, &ours, &trial.name)?;
        Ok(ours)
    }

    /// Rows through `report_rows`; of a report none is refused, and each has its line.
    fn try_report_rows(&self, rows: &str, name: &str) -> Result<(), String> {
        let ours = rows_printed(rows.as_bytes());
        if ours.contains("refused") || ours.lines().count() != rows.lines().count() {
            return Err("the second program refuses its own row".to_string());
        }
        self.try_program(&self.report_rows, rows.as_bytes(), &ours, name)
    }

    /// Words that are no version: nothing is printed, and one line is said.
    fn try_wrong_arguments(&self, words: &[&str], bytes: &[u8]) -> Result<(), String> {
        let [theirs, said] = library_outputs(&self.report_with(words), bytes, &self.input)?;
        let is_one_line = said.ends_with(b"\n") && said.iter().filter(|&&byte| byte == b'\n').count() == 1;
        if theirs.is_empty() && is_one_line {
            return Ok(());
        }
        Err(format!("{} bytes printed, said {:?}", theirs.len(), String::from_utf8_lossy(&said)))
    }
}

/// The second program's panic is a failure of its trial and not the end of them all.
fn caught<T>(run: impl FnOnce() -> Result<T, String>) -> Result<T, String> {
    std::panic::catch_unwind(std::panic::AssertUnwindSafe(run))
        .unwrap_or_else(|_| Err("the second program crashed".to_string()))
}

fn try_books(library: &Library, books: u64, seed: u64) -> [[u64; 2]; 2] {
    let [mut of_books, mut of_batches] = [Tried::default(), Tried::default()];
    let mut rows = String::new();
    let mut batch = |rows: &mut String, last: u64| {
        let name = format!("{seed}-rows-up-to-{last}");
        of_batches.note(&name, caught(|| library.try_report_rows(rows, &name)));
        rows.lines().for_each(|_| of_batches.meet("rows"));
        rows.clear();
    };
    for nth in 0..books {
        let trial = book_trial(seed, nth);
        match caught(|| library.try_book(&trial)) {
            Ok(text) => {
                count_rows(&text, &mut of_books);
                of_books.note(&trial.name, Ok(()));
                rows += if text.starts_with("refused") { "" } else { &text };
            }
            Err(why) => of_books.note(&trial.name, Err(why)),
        }
        if rows.len() > BATCH {
            batch(&mut rows, nth);
        }
    }
    batch(&mut rows, books);
    [of_books.say("books through report"), of_batches.say("their rows through report_rows, in batches")]
}

/// Right and wrong arguments, over a whole book, a refused one and no byte at all.
fn try_arguments(library: &Library, seed: u64) -> [u64; 2] {
    let mut tried = Tried::default();
    for (nth, bytes) in [book_trial(seed, 0).bytes, book_trial(seed, 3).bytes, Vec::new()].iter().enumerate()
    {
        for word in right_arguments() {
            let name = format!("{seed}-argument-{word}-{nth}");
            let version = Some(word.to_string());
            let trial = ReportTrial { name: name.clone(), bytes: bytes.clone(), version };
            tried.note(&name, caught(|| library.try_book(&trial)).map(|_| ()));
        }
        for words in wrong_arguments() {
            tried.note(&format!("arguments {words:?}"), library.try_wrong_arguments(&words, bytes));
        }
    }
    tried.say("arguments of report")
}

/// Rows, most of them with a wrong one among them, through `report_rows`.
fn try_rows(library: &Library, seed: u64) -> [u64; 2] {
    let mut tried = Tried::default();
    let trials = (0..ROWS_TRIALS).map(|nth| rows_trial(seed, nth));
    for (nth, bytes) in known_rows().into_iter().chain(trials).enumerate() {
        let name = format!("{seed}-rows-{nth}");
        let ours = rows_printed(&bytes);
        match ours.lines().last().filter(|line| line.starts_with("refused")) {
            Some(line) => {
                tried.meet(&format!("first wrong column {}", line.rsplit(' ').next().expect("a word")))
            }
            None => tried.meet("no wrong column"),
        }
        tried.note(&name, caught(|| library.try_program(&library.report_rows, &bytes, &ours, &name)));
    }
    tried.say("rows through report_rows")
}

/// Books and rows through the programs of both; whether all of them agree.
fn compare(books: u64, seed: u64) -> bool {
    fs::create_dir_all(DIFFERENCES).expect("run from the top of the repository");
    let input = Path::new(DIFFERENCES).join(format!("in-work-{}", std::process::id()));
    let (report, report_rows) = match (found("report"), found("report_rows")) {
        (Ok(report), Ok(report_rows)) => (report, report_rows),
        (Err(missing), _) | (_, Err(missing)) => {
            println!("reports: {missing}");
            return false;
        }
    };
    println!("library: {}; {}", report.join(" "), report_rows.join(" "));
    let library = Library { report, report_rows, input };
    let [of_books, of_batches] = try_books(&library, books, seed);
    let all = [of_books, of_batches, try_arguments(&library, seed), try_rows(&library, seed)];
    let _ = fs::remove_file(&library.input);
    let [passed, failed] = [0, 1].map(|place| all.iter().map(|sort| sort[place]).sum::<u64>());
    println!("reports: {passed} passed, {failed} failed");
    failed == 0
}

fn model(out: &mut impl Write) -> std::io::Result<()> {
    let mut doors = ReportDoors::default();
    for line in std::io::stdin().lock().lines() {
        writeln!(out, "{}", doors.answer_line(&line?))?;
    }
    Ok(())
}

/// The number of an answer, and where a row was read and refused the column.
fn outcome(answer: &str) -> String {
    let words: Vec<&str> = answer.split(' ').collect();
    match words[..] {
        ["read", "18", _, column, ..] => format!("18 at {column}"),
        [_, number, ..] => number.to_string(),
        _ => answer.to_string(),
    }
}

/// The answers of the script's calls, by kind and door.
fn counts(count: u64, seed: u64, out: &mut impl Write) -> std::io::Result<()> {
    let mut by_kind: BTreeMap<String, BTreeMap<String, u64>> = BTreeMap::new();
    let mut doors = ReportDoors::default();
    for (kind, line) in script(count, seed) {
        let answer = doors.answer(&line);
        let door = answer.split(' ').next().expect("a word");
        for kind in [format!("  {kind}: {door}"), door.to_string()] {
            *by_kind.entry(kind).or_default().entry(outcome(&answer)).or_default() += 1;
        }
    }
    for (kind, answers) in &by_kind {
        let words: Vec<String> = answers.iter().map(|(answer, count)| format!("{answer}: {count}")).collect();
        writeln!(out, "{kind}: {}", words.join(", "))?;
    }
    Ok(())
}

fn main() -> std::io::Result<ExitCode> {
    let words: Vec<String> = std::env::args().skip(1).collect();
    let number = |place: usize, otherwise: u64| -> u64 {
        words.get(place).map_or(otherwise, |word| word.parse().expect(USAGE))
    };
    let (count, seed) = (|| number(1, COUNT), || number(2, SEED));
    let years = || (number(1, FIRST_YEAR.into()) as u32, number(2, LAST_YEAR.into()) as u32);
    let mut out = BufWriter::new(std::io::stdout().lock());
    match words.first().map(String::as_str) {
        Some("script") => write_script(count(), seed(), &mut out)?,
        Some("changed") => write_changed(count(), seed(), &mut out)?,
        Some("dates") => write_dates(years().0, years().1, &mut out)?,
        Some("model") => model(&mut out)?,
        Some("counts") => counts(count(), seed(), &mut out)?,
        Some("compare") => {
            drop(out);
            return Ok(if compare(count(), seed()) { ExitCode::SUCCESS } else { ExitCode::FAILURE });
        }
        _ => panic!("{USAGE}"),
    }
    out.flush()?;
    Ok(ExitCode::SUCCESS)
}
