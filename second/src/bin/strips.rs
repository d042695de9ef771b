//! `strips script COUNT [SEED]`: so many calls of the trend strip's door, a line each; `strips model`: reads such lines and says
//! of each call what it replies and leaves; `strips counts COUNT [SEED]`: how many calls of the script have which answer;
//! `strips compare BOOKS [SEED]`: books through the second program's `trend` and the library's, as text and by bits, byte for
//! byte (a difference is kept under target/differences; run from the top of the repository, see tests/strips).

use std::collections::{BTreeMap, BTreeSet};
use std::fs;
use std::io::{BufRead, BufWriter, Write};
use std::path::{Path, PathBuf};
use std::process::ExitCode;

use second::library::{library_command, library_outputs};
use second::listing::settle;
use second::strip_script::{answer_line, call, made_of, write_calls};
use second::strip_text::{printed, Form, WRONG_ARGUMENT};
use second::strip_trials::{book_trial, wrong_arguments, StripTrial};

const USAGE: &str =
    "usage: strips script COUNT [SEED] | strips model | strips counts COUNT [SEED] | strips compare BOOKS [SEED]";
const DIFFERENCES: &str = "target/differences";
const COUNT: u64 = 20_000;
const SEED: u64 = 2_026;

/// How the words of a form are put behind the program's name.
const FORMS: [(Form, &[&str]); 2] = [(Form::Text, &[]), (Form::Bits, &["bits"])];

fn keep(name: &str, ending: &str, bytes: &[u8]) {
    let path = format!("{DIFFERENCES}/{name}.{ending}");
    fs::write(&path, bytes).expect("a place for differences");
    println!("kept {path}");
}

/// The library's program, and where its input is put.
struct Library {
    trend: Vec<String>,
    input: PathBuf,
}

impl Library {
    /// Where it is not built, what is missing.
    fn found(input: PathBuf) -> Result<Library, String> {
        let missing = "target/bin/trend is not there (rt check trend), and no command line in TREND";
        let trend = library_command("trend").filter(|words| !words.is_empty());
        Ok(Library { trend: trend.ok_or(missing)?, input })
    }

    fn command(&self, words: &[&str]) -> Vec<String> {
        self.trend.iter().cloned().chain(words.iter().map(|word| word.to_string())).collect()
    }

    /// A book in both forms; on standard error nothing is said. What was printed as text is returned.
    fn try_book(&self, trial: &StripTrial) -> Result<String, String> {
        for (form, words) in FORMS {
            let ours = printed(&trial.bytes, form);
            if ours.starts_with("refused") && settle(&trial.bytes) != ours {
                return Err("the second program's settle says otherwise".to_string());
            }
            let [theirs, said] = library_outputs(&self.command(words), &trial.bytes, &self.input)?;
            if theirs != ours.as_bytes() || !said.is_empty() {
                keep(&trial.name, "second", ours.as_bytes());
                keep(&trial.name, "library", &[theirs, said].concat());
                return Err(format!("the outputs differ: {}", self.command(words).join(" ")));
            }
        }
        Ok(printed(&trial.bytes, Form::Text))
    }

    /// Words that are not known: nothing is printed, and one line is said.
    fn try_arguments(&self, words: &[&str], bytes: &[u8]) -> Result<(), String> {
        let [theirs, said] = library_outputs(&self.command(words), bytes, &self.input)?;
        if theirs.is_empty() && said == format!("{WRONG_ARGUMENT}\n").as_bytes() {
            return Ok(());
        }
        Err(format!("{} bytes printed, said {:?}", theirs.len(), String::from_utf8_lossy(&said)))
    }
}

/// What the lines of a book show, counted: drawn and bad units, or the refusal's number.
fn count_lines(text: &str, met: &mut BTreeMap<String, u64>) {
    if text.is_empty() {
        *met.entry("books without a unit".to_string()).or_default() += 1;
    }
    for line in text.lines() {
        let words: Vec<&str> = line.split(' ').collect();
        let what = match words[..] {
            ["refused", number, _, _] => format!("refused {number}"),
            ["unit", _, "bad"] => "bad units".to_string(),
            _ => "drawn units".to_string(),
        };
        *met.entry(what).or_default() += 1;
    }
}

/// How many books passed and how many failed.
fn try_books(library: &Library, books: u64, seed: u64) -> [u64; 2] {
    let mut met = BTreeMap::new();
    let [mut passed, mut failed] = [0, 0];
    for trial in (0..books).map(|nth| book_trial(seed, nth)) {
        let tried = std::panic::catch_unwind(std::panic::AssertUnwindSafe(|| library.try_book(&trial)))
            .unwrap_or_else(|_| Err("the second program crashed".to_string()));
        match tried {
            Ok(text) => {
                count_lines(&text, &mut met);
                passed += 1;
            }
            Err(why) => {
                keep(&trial.name, "book", &trial.bytes);
                println!("FAILED {}: {why}", trial.name);
                failed += 1;
            }
        }
    }
    for (what, count) in &met {
        println!("  {what}: {count}");
    }
    println!("books as text and by bits: {passed} passed, {failed} failed");
    [passed, failed]
}

/// Arguments that are not known, over a whole book and over no byte at all.
fn try_all_arguments(library: &Library, seed: u64) -> [u64; 2] {
    let [mut passed, mut failed] = [0, 0];
    for words in wrong_arguments() {
        for bytes in [book_trial(seed, 0).bytes, book_trial(seed, 3).bytes, Vec::new()] {
            match library.try_arguments(&words, &bytes) {
                Ok(()) => passed += 1,
                Err(why) => {
                    println!("FAILED arguments {words:?}: {why}");
                    failed += 1;
                }
            }
        }
    }
    println!("arguments that are not known: {passed} passed, {failed} failed");
    [passed, failed]
}

/// Books through the programs of both; whether all of them agree.
fn compare(books: u64, seed: u64) -> bool {
    fs::create_dir_all(DIFFERENCES).expect("run from the top of the repository");
    let input = Path::new(DIFFERENCES).join(format!("in-work-{}", std::process::id()));
    let library = match Library::found(input) {
        Ok(library) => library,
        Err(missing) => {
            println!("strips: {missing}");
            return false;
        }
    };
    println!("library: {}", library.trend.join(" "));
    let all = [try_books(&library, books, seed), try_all_arguments(&library, seed)];
    let _ = fs::remove_file(&library.input);
    let [passed, failed] = [0, 1].map(|place| all.iter().map(|sort| sort[place]).sum::<u64>());
    println!("strips: {passed} passed, {failed} failed");
    failed == 0
}

fn model(out: &mut impl Write) -> std::io::Result<()> {
    for line in std::io::stdin().lock().lines() {
        writeln!(out, "{}", answer_line(&line?))?;
    }
    Ok(())
}

/// The answers of the script's calls, by kind and all together, and with how many different t they are.
fn counts(count: u64, seed: u64, out: &mut impl Write) -> std::io::Result<()> {
    let mut by_kind: BTreeMap<&str, BTreeMap<String, u64>> = BTreeMap::new();
    let mut all: BTreeMap<String, (u64, BTreeSet<String>)> = BTreeMap::new();
    for nth in 0..count {
        let (kind, call) = call(seed, nth);
        let (reply, _) = made_of(&call);
        let words: Vec<&str> = reply.split(' ').collect();
        let (outcome, t) = match words[..] {
            ["refused", number, _, t] => (format!("refused {number}"), t.to_string()),
            _ => (reply.clone(), String::new()),
        };
        *by_kind.entry(kind).or_default().entry(outcome.clone()).or_default() += 1;
        let (met, ts) = all.entry(outcome).or_default();
        *met += 1;
        ts.insert(t);
    }
    for (kind, answers) in &by_kind {
        let words: Vec<String> = answers.iter().map(|(answer, count)| format!("{answer} {count}")).collect();
        writeln!(out, "  {kind}: {}", words.join(", "))?;
    }
    for (answer, (met, ts)) in &all {
        writeln!(out, "{answer}: {met}, t {}", ts.len())?;
    }
    Ok(())
}

fn main() -> std::io::Result<ExitCode> {
    let words: Vec<String> = std::env::args().skip(1).collect();
    let number = |place: usize, otherwise: u64| -> u64 {
        words.get(place).map_or(otherwise, |word| word.parse().expect(USAGE))
    };
    let count = || number(1, COUNT);
    let seed = number(2, SEED);
    let mut out = BufWriter::new(std::io::stdout().lock());
    match words.first().map(String::as_str) {
        Some("script") => write_calls(count(), seed, &mut out)?,
        Some("model") => model(&mut out)?,
        Some("counts") => counts(count(), seed, &mut out)?,
        Some("compare") => {
            drop(out);
            return Ok(if compare(count(), seed) { ExitCode::SUCCESS } else { ExitCode::FAILURE });
        }
        _ => panic!("{USAGE}"),
    }
    out.flush()?;
    Ok(ExitCode::SUCCESS)
}
