//! `writers script COUNT [SEED]`: so many calls of the book writer's door, a line each; `writers model`: reads such lines
//! and says of each call what it replies and leaves; `writers counts COUNT [SEED]`: how many calls of the script have
//! which answer; `writers compare BOOKS [SEED]`: books and texts through the second program's `read_book` and
//! `write_book` and the library's, byte for byte, refused books through its `settle` too (a difference is kept under
//! target/differences; run from the top of the repository, see tests/writer); `writers stored DIR`: the paper's book as text.

use std::collections::BTreeMap;
use std::fs;
use std::io::{BufRead, BufWriter, Write};
use std::path::{Path, PathBuf};
use std::process::ExitCode;

use second::book_text::{printed_of_book, written_of_text};
use second::library::{library_command, library_outputs};
use second::listing::settle;
use second::writer_script::{answer, answer_line, call, write_calls};
use second::writer_trials::*;

const USAGE: &str = "usage: writers script COUNT [SEED] | writers model | writers counts COUNT [SEED] | \
                     writers compare BOOKS [SEED] | writers stored DIR";
const DIFFERENCES: &str = "target/differences";
const COUNT: u64 = 2_000;
const SEED: u64 = 2_026;

/// Beside so many books there is one more with wrong values, and one text.
const FIELD_ONE_IN: u64 = 4;
const TEXT_ONE_IN: u64 = 2;

fn keep(name: &str, ending: &str, bytes: &[u8]) {
    let path = format!("{DIFFERENCES}/{name}.{ending}");
    fs::write(&path, bytes).expect("a place for differences");
    println!("kept {path}");
}

/// What was printed, without what is particular to one book: a refusal's number, or whether it is a text or a book.
fn outcome_of(printed: &[u8]) -> String {
    let first_line = printed.split(|&byte| byte == b'\n').next().unwrap_or(&[]);
    let words: Vec<&[u8]> = first_line.split(|&byte| byte == b' ').collect();
    let word = |bytes: &[u8]| String::from_utf8_lossy(bytes).into_owned();
    match words[..] {
        [b"refused", number, _, _] => format!("refused {}", word(number)),
        [b"text", _] => "text".to_string(),
        [b"settings", ..] => "a book's text".to_string(),
        _ => "a book".to_string(),
    }
}

/// The library's three programs, and where their input is put.
struct Library {
    read_book: Vec<String>,
    write_book: Vec<String>,
    settle: Vec<String>,
    input: PathBuf,
}

impl Library {
    /// Where one of them is not built, what is missing.
    fn found(input: PathBuf) -> Result<Library, String> {
        let command = |name: &str| {
            let missing = format!(
                "target/bin/{name} is not there (rt check {name}), and no command line in {}",
                name.to_uppercase()
            );
            library_command(name).filter(|words| !words.is_empty()).ok_or(missing)
        };
        let [read_book, write_book, settle] = ["read_book", "write_book", "settle"].map(command);
        Ok(Library { read_book: read_book?, write_book: write_book?, settle: settle?, input })
    }

    /// What a program prints has to be this, and it says nothing on standard error.
    fn holds(
        &self,
        trial: &WriterTrial,
        command: &[String],
        bytes: &[u8],
        printed: &[u8],
    ) -> Result<(), String> {
        let [theirs, said] = library_outputs(command, bytes, &self.input)?;
        if theirs == printed && said.is_empty() {
            return Ok(());
        }
        keep(&trial.name, "second", printed);
        keep(&trial.name, "library", &[theirs, said].concat());
        Err(format!("the outputs differ: {}", command.join(" ")))
    }

    /// A book through `read_book`; an accepted one from its text through `write_book`, a refused one through `settle`.
    fn try_book(&self, trial: &WriterTrial) -> Result<Vec<u8>, String> {
        let text = printed_of_book(&trial.bytes).into_bytes();
        self.holds(trial, &self.read_book, &trial.bytes, &text)?;
        if text.starts_with(b"refused") {
            if settle(&trial.bytes).as_bytes() != text {
                return Err("the second program's settle says otherwise".to_string());
            }
            self.holds(trial, &self.settle, &trial.bytes, &text)?;
        } else {
            if written_of_text(&text) != trial.bytes {
                return Err("the second program does not give the book back".to_string());
            }
            self.holds(trial, &self.write_book, &text, &trial.bytes)?;
        }
        Ok(text)
    }

    fn try_text(&self, trial: &WriterTrial) -> Result<Vec<u8>, String> {
        let printed = written_of_text(&trial.bytes);
        self.holds(trial, &self.write_book, &trial.bytes, &printed)?;
        Ok(printed)
    }
}

type Try = fn(&Library, &WriterTrial) -> Result<Vec<u8>, String>;

/// Runs of one sort, counted by their outcome; how many passed and how many failed.
fn try_all(
    library: &Library,
    what: &str,
    try_one: Try,
    trials: impl Iterator<Item = WriterTrial>,
) -> [u64; 2] {
    let mut outcomes: BTreeMap<String, u64> = BTreeMap::new();
    let mut failed = 0_u64;
    for trial in trials {
        let tried = std::panic::catch_unwind(std::panic::AssertUnwindSafe(|| try_one(library, &trial)))
            .unwrap_or_else(|_| Err("the second program crashed".to_string()));
        match tried {
            Ok(printed) => *outcomes.entry(outcome_of(&printed)).or_default() += 1,
            Err(why) => {
                keep(&trial.name, "input", &trial.bytes);
                println!("FAILED {}: {why}", trial.name);
                failed += 1;
            }
        }
    }
    for (outcome, count) in &outcomes {
        println!("  {outcome}: {count}");
    }
    let passed = outcomes.values().sum();
    println!("{what}: {passed} passed, {failed} failed");
    [passed, failed]
}

/// Books and texts through the programs of both; whether all of them agree.
fn compare(books: u64, seed: u64) -> bool {
    fs::create_dir_all(DIFFERENCES).expect("run from the top of the repository");
    let input = Path::new(DIFFERENCES).join(format!("in-work-{}", std::process::id()));
    let library = match Library::found(input) {
        Ok(library) => library,
        Err(missing) => {
            println!("writers: {missing}");
            return false;
        }
    };
    for command in [&library.read_book, &library.write_book, &library.settle] {
        println!("library: {}", command.join(" "));
    }
    let (field, text) = (books.div_ceil(FIELD_ONE_IN), books.div_ceil(TEXT_ONE_IN));
    let (of_book, of_text): (Try, Try) = (Library::try_book, Library::try_text);
    let all = [
        try_all(&library, "books", of_book, (0..books).map(|nth| book_trial(seed, nth))),
        try_all(
            &library,
            "damaged books of the script's calls",
            of_book,
            (0..books).filter_map(|nth| script_book_trial(seed, nth)),
        ),
        try_all(&library, "books with wrong fields", of_book, (0..field).map(|nth| field_trial(seed, nth))),
        try_all(&library, "known texts", of_text, known_texts().into_iter().map(|(trial, _)| trial)),
        try_all(&library, "texts", of_text, (0..text).map(|nth| text_trial(seed, nth))),
    ];
    let _ = fs::remove_file(&library.input);
    let [passed, failed] = [0, 1].map(|place| all.iter().map(|sort| sort[place]).sum::<u64>());
    println!("writers: {passed} passed, {failed} failed");
    failed == 0
}

fn model(out: &mut impl Write) -> std::io::Result<()> {
    for line in std::io::stdin().lock().lines() {
        writeln!(out, "{}", answer_line(&line?))?;
    }
    Ok(())
}

/// The answers of the script's calls, by kind and all together, and at how many places and with how many t they are.
fn counts(count: u64, seed: u64, out: &mut impl Write) -> std::io::Result<()> {
    let mut by_kind: BTreeMap<&str, BTreeMap<String, u64>> = BTreeMap::new();
    let mut all: BTreeMap<String, Vec<(String, String)>> = BTreeMap::new();
    for nth in 0..count {
        let (kind, given) = call(seed, nth);
        let said = answer(&given);
        let words: Vec<&str> = said.split(' ').collect();
        let (outcome, place) = match words[..] {
            ["refused", number, place, t, _] => {
                (format!("refused {number}"), (place.to_string(), t.to_string()))
            }
            _ => ("written".to_string(), (String::new(), String::new())),
        };
        *by_kind.entry(kind).or_default().entry(outcome.clone()).or_default() += 1;
        all.entry(outcome).or_default().push(place);
    }
    for (kind, answers) in &by_kind {
        let words: Vec<String> = answers.iter().map(|(answer, count)| format!("{answer} {count}")).collect();
        writeln!(out, "  {kind}: {}", words.join(", "))?;
    }
    let different = |mut words: Vec<&String>| {
        words.sort();
        words.dedup();
        words.len()
    };
    for (answer, met) in &all {
        let places = different(met.iter().map(|(place, _)| place).collect());
        let ts = different(met.iter().map(|(_, t)| t).collect());
        writeln!(out, "{answer}: {}, places {places}, t {ts}", met.len())?;
    }
    Ok(())
}

fn write_stored(dir: &Path) -> std::io::Result<()> {
    fs::create_dir_all(dir)?;
    fs::write(dir.join("paper.text"), paper_text())
}

fn main() -> std::io::Result<ExitCode> {
    let words: Vec<String> = std::env::args().skip(1).collect();
    let number = |place: usize, otherwise: u64| -> u64 {
        words.get(place).map_or(otherwise, |word| word.parse().expect(USAGE))
    };
    let count = || number(1, COUNT);
    let seed = number(2, SEED);
    let mut out = BufWriter::new(std::io::stdout().lock());
    match words.first().map(String::as_str) {
        Some("script") => write_calls(count(), seed, &mut out)?,
        Some("model") => model(&mut out)?,
        Some("counts") => counts(count(), seed, &mut out)?,
        Some("compare") => {
            drop(out);
            return Ok(if compare(count(), seed) { ExitCode::SUCCESS } else { ExitCode::FAILURE });
        }
        Some("stored") => write_stored(Path::new(words.get(1).expect(USAGE)))?,
        _ => panic!("{USAGE}"),
    }
    out.flush()?;
    Ok(ExitCode::SUCCESS)
}
