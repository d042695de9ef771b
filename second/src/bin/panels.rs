//! `panels script COUNT [SEED]`: so many calls of the panel's doors, a line each; `panels model`: reads such lines and says of
//! each call what it replies and leaves; `panels counts COUNT [SEED]`: how many calls of the script have an answer of which
//! sort; `panels keys SEED COUNT`: so many keys for a panel by hand; `panels compare BOOKS [SEED] [KEYS]`: runs of books with
//! keys through the second program's `watch` and the library's, byte for byte (a difference is kept under target/differences;
//! run from the top of the repository, see tests/panel).

use std::collections::BTreeMap;
use std::ffi::OsString;
use std::fs;
use std::io::{BufRead, BufWriter, Write};
use std::path::PathBuf;
use std::process::ExitCode;

use second::library::{library_command, library_outputs};
use second::make::make;
use second::panel_door::answer_line;
use second::panel_script::{call, hashed, sort_of, write_calls};
use second::panel_trials::{odd_runs, plain_keys, run, Run, Word};
use second::watch::{arguments, printed, watch, Screen, Sort};
use second::write::to_bytes;

const USAGE: &str = "usage: panels script COUNT [SEED] | panels model | panels counts COUNT [SEED] \
    | panels keys SEED COUNT | panels compare BOOKS [SEED] [KEYS]";
const DIFFERENCES: &str = "target/differences";
const COUNT: u64 = 20_000;
const BOOKS: u64 = 2_000;
const KEYS: u64 = 200;
const SEED: u64 = 2_026;

fn keep(name: &str, ending: &str, bytes: &[u8]) {
    let path = format!("{DIFFERENCES}/{name}.{ending}");
    fs::write(&path, bytes).expect("a place for differences");
    println!("kept {path}");
}

/// How many screens of each sort there were.
#[derive(Default)]
struct Screens {
    all: u64,
    first: u64,
    live: u64,
    default: u64,
    residuals: u64,
    groups: u64,
    phrases: BTreeMap<&'static str, u64>,
    hashes: u64,
}

impl Screens {
    fn count(&mut self, screen: &Screen) {
        self.all += 1;
        self.hashes += hashed(&screen.text) as u64;
        match screen.sort {
            Sort::First => self.first += 1,
            Sort::Phrase(phrase) => *self.phrases.entry(phrase).or_default() += 1,
            Sort::Member { live, residual, group } => {
                self.live += u64::from(live);
                self.default += u64::from(!live);
                self.residuals += u64::from(residual);
                self.groups += u64::from(group);
            }
        }
    }

    fn say(&self) {
        let Screens { all, first, live, default, residuals, groups, phrases, hashes } = self;
        println!("  screens: {all}; first pages: {first}; members live: {live}, default: {default}");
        println!("    of the members residuals: {residuals}, groups: {groups}");
        for (phrase, count) in phrases {
            println!("    {phrase}: {count}");
        }
        println!("    figures as hashes: {hashes}");
    }
}

/// The library's program, the folder of the books, and how it went.
struct Compared {
    watch: Vec<String>,
    folder: PathBuf,
    screens: Screens,
    passed: u64,
    failed: u64,
}

impl Compared {
    /// Both programs with these arguments and keys; on standard error nothing is said.
    fn try_watch(&mut self, words: &[OsString], keys: &[u8], name: &str) -> Result<(), String> {
        let (live, books) = arguments(words).ok_or("no book is named")?;
        let mut ours = Vec::new();
        watch(books, keys.iter().copied(), |screen| {
            self.screens.count(screen);
            ours.extend(printed(screen, live));
            Ok(())
        })
        .map_err(|error| error.to_string())?;
        let [theirs, said] = self.outputs(words, keys)?;
        if theirs == ours && said.is_empty() {
            return Ok(());
        }
        keep(name, "keys", keys);
        keep(name, "second", &ours);
        keep(name, "library", &[theirs, said].concat());
        let words: Vec<_> = words.iter().map(|word| word.to_string_lossy()).collect();
        Err(format!("the outputs differ: {} {}", self.watch.join(" "), words.join(" ")))
    }

    /// Without a book nothing is printed, and one line is said.
    fn try_no_book(&self, words: &[OsString], keys: &[u8]) -> Result<(), String> {
        let [theirs, said] = self.outputs(words, keys)?;
        let is_one_line = said.ends_with(b"\n") && said.iter().filter(|&&byte| byte == b'\n').count() == 1;
        if theirs.is_empty() && is_one_line {
            return Ok(());
        }
        Err(format!("{} bytes printed, said {:?}", theirs.len(), String::from_utf8_lossy(&said)))
    }

    fn outputs(&self, words: &[OsString], keys: &[u8]) -> Result<[Vec<u8>; 2], String> {
        let words = words.iter().map(|word| word.to_str().expect("plain names").to_string());
        let command: Vec<String> = self.watch.iter().cloned().chain(words).collect();
        library_outputs(&command, keys, &self.folder.join("keys"))
    }

    fn note(&mut self, name: &str, weight: u64, outcome: Result<(), String>) -> bool {
        match &outcome {
            Ok(()) => self.passed += weight,
            Err(why) => {
                println!("FAILED {name}: {why}");
                self.failed += weight;
            }
        }
        outcome.is_ok()
    }

    fn try_run(&mut self, run: &Run) {
        let live = run.live.then(|| OsString::from("live"));
        let books = run.books.iter().enumerate().map(|(place, bytes)| {
            let path = self.folder.join(format!("{}.book", place + 1));
            fs::write(&path, bytes).expect("room for books");
            path.into_os_string()
        });
        let words: Vec<OsString> = live.into_iter().chain(books).collect();
        let outcome = caught(|| self.try_watch(&words, &run.keys, &run.name));
        if !self.note(&run.name, run.books.len() as u64, outcome) {
            for (place, bytes) in run.books.iter().enumerate() {
                keep(&format!("{}-{}", run.name, place + 1), "book", bytes);
            }
        }
    }

    /// The argument that an odd run has, with what it names in the folder.
    fn odd_word(&self, word: Word) -> OsString {
        let whole = to_bytes(&make(SEED, "sets", Some(7)).expect("a class of the list"));
        let of = |name: &str| self.folder.join(name);
        let file = |name: &str, bytes: &[u8]| {
            fs::write(of(name), bytes).expect("room for books");
            of(name).into_os_string()
        };
        match word {
            Word::Live => OsString::from("live"),
            Word::Whole => file("whole.book", &whole),
            Word::Refused => file("refused.book", &[&whole[..], &[0]].concat()),
            Word::Empty => file("empty.book", &[]),
            Word::Missing => of("missing.book").into_os_string(),
            Word::Folder => self.folder.clone().into_os_string(),
        }
    }

    fn try_odd_runs(&mut self) {
        for (nth, (words, keys)) in odd_runs().into_iter().enumerate() {
            let name = format!("odd-{nth}");
            let words: Vec<OsString> = words.iter().map(|&word| self.odd_word(word)).collect();
            let outcome = if arguments(&words).is_some() {
                caught(|| self.try_watch(&words, &keys, &name))
            } else {
                self.try_no_book(&words, &keys)
            };
            self.note(&format!("{name} {words:?}"), 1, outcome);
        }
    }
}

/// The second program's panic is a failure of its run and not the end of them all.
fn caught(run: impl FnOnce() -> Result<(), String>) -> Result<(), String> {
    std::panic::catch_unwind(std::panic::AssertUnwindSafe(run))
        .unwrap_or_else(|_| Err("the second program crashed".to_string()))
}

/// Books through the programs of both; whether all of them agree.
fn compare(books: u64, seed: u64, keys: u64) -> bool {
    fs::create_dir_all(DIFFERENCES).expect("run from the top of the repository");
    let Some(watch) = library_command("watch").filter(|words| !words.is_empty()) else {
        println!("panels: target/bin/watch is not there (rt check watch), and no command line in WATCH");
        return false;
    };
    println!("library: {}", watch.join(" "));
    let folder = std::env::temp_dir().join(format!("panels-{}", std::process::id()));
    fs::create_dir_all(&folder).expect("a temporary folder");
    let mut compared = Compared { watch, folder, screens: Screens::default(), passed: 0, failed: 0 };
    let (mut first, mut runs) = (0, 0);
    while first < books {
        let run = run(seed, first, books - first, keys as usize);
        compared.try_run(&run);
        first += run.books.len() as u64;
        runs += 1;
    }
    println!("  runs of books: {runs}");
    compared.try_odd_runs();
    compared.screens.say();
    let _ = fs::remove_dir_all(&compared.folder);
    println!("panels: {} passed, {} failed", compared.passed, compared.failed);
    compared.failed == 0
}

fn model(out: &mut impl Write) -> std::io::Result<()> {
    for line in std::io::stdin().lock().lines() {
        writeln!(out, "{}", answer_line(&line?))?;
    }
    Ok(())
}

/// The sorts of the script's answers, by kind and by door.
fn counts(count: u64, seed: u64, out: &mut impl Write) -> std::io::Result<()> {
    let mut by_kind: BTreeMap<String, BTreeMap<String, u64>> = BTreeMap::new();
    for (kind, call) in (0..count).map(|nth| call(seed, nth)) {
        let door = kind.split(',').next().expect("a door").to_string();
        for kind in [format!("  {kind}"), door] {
            *by_kind.entry(kind).or_default().entry(sort_of(&call)).or_default() += 1;
        }
    }
    for (kind, sorts) in &by_kind {
        let words: Vec<String> = sorts.iter().map(|(sort, count)| format!("{sort}: {count}")).collect();
        writeln!(out, "{kind}: {}", words.join(", "))?;
    }
    Ok(())
}

fn main() -> std::io::Result<ExitCode> {
    let words: Vec<String> = std::env::args().skip(1).collect();
    let number = |place: usize, otherwise: u64| -> u64 {
        words.get(place).map_or(otherwise, |word| word.parse().expect(USAGE))
    };
    let (count, seed) = (|| number(1, COUNT), || number(2, SEED));
    let mut out = BufWriter::new(std::io::stdout().lock());
    match words.first().map(String::as_str) {
        Some("script") => write_calls(count(), seed(), &mut out)?,
        Some("model") => model(&mut out)?,
        Some("counts") => counts(count(), seed(), &mut out)?,
        Some("keys") => out.write_all(&plain_keys(number(1, SEED), number(2, KEYS) as usize))?,
        Some("compare") => {
            drop(out);
            let agree = compare(number(1, BOOKS), seed(), number(3, KEYS));
            return Ok(if agree { ExitCode::SUCCESS } else { ExitCode::FAILURE });
        }
        _ => panic!("{USAGE}"),
    }
    out.flush()?;
    Ok(ExitCode::SUCCESS)
}
