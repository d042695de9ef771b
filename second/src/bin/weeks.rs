//! `weeks script WEEKS [SEED]`: a script of random weeks for the doors; `weeks model`: reads a script and says of
//! each line what is replied and left; `weeks compare WEEKS [SEED]`: weeks of books through the second program's
//! `week` and the library's, byte for byte, with what they say on standard error (a difference is kept under
//! target/differences; run from the top of the repository, see tests/weeks); `weeks stored DIR`: the runs kept as
//! files.

use std::collections::BTreeMap;
use std::fs;
use std::io::{BufWriter, Write};
use std::path::Path;
use std::process::ExitCode;

use second::doors::Doors;
use second::library::{announcement, library_command, library_outputs};
use second::replay::replay;
use second::week_books::{stored, trial, WeekTrial};
use second::week_script::write_script;

const USAGE: &str =
    "usage: weeks script WEEKS [SEED] | weeks model | weeks compare WEEKS [SEED] | weeks stored DIR";
const DIFFERENCES: &str = "target/differences";
const WEEKS: u64 = 2_000;
const SEED: u64 = 2_026;

fn keep(name: &str, ending: &str, bytes: &[u8]) {
    let path = format!("{DIFFERENCES}/{name}.{ending}");
    fs::write(&path, bytes).expect("a place for differences");
    println!("kept {path}");
}

/// One week through both programs: what the second program printed, or what is wrong.
fn try_week(trial: &WeekTrial, command: Option<&[String]>, scratch: &Path) -> Result<String, String> {
    let (printed, said) = replay(&trial.bytes);
    if let Some(command) = command {
        let [theirs, their_words] = library_outputs(command, &trial.bytes, scratch)?;
        if theirs != printed.as_bytes() || their_words != said.as_bytes() {
            keep(&trial.name, "second", (printed + &said).as_bytes());
            keep(&trial.name, "library", &[theirs, their_words].concat());
            return Err("the outputs differ".to_string());
        }
    }
    Ok(printed)
}

fn outcome_of(output: &str) -> String {
    match output.split(' ').collect::<Vec<_>>()[..] {
        ["refused", number, ..] => format!("refused {number}"),
        _ => "lines".to_string(),
    }
}

/// Weeks through both programs; whether all of them agree.
fn compare(weeks: u64, seed: u64) -> bool {
    fs::create_dir_all(DIFFERENCES).expect("run from the top of the repository");
    let scratch = Path::new(DIFFERENCES).join(format!("in-work-{}", std::process::id()));
    let command = library_command("week");
    println!("{}", announcement(command.as_deref()));
    let mut outcomes: BTreeMap<String, u64> = BTreeMap::new();
    let mut failed = 0;
    for turn in 0..weeks {
        let trial = trial(seed, turn);
        match try_week(&trial, command.as_deref(), &scratch) {
            Ok(output) => *outcomes.entry(outcome_of(&output)).or_default() += 1,
            Err(what) => {
                keep(&trial.name, "books", &trial.bytes);
                println!("FAILED {}: {what}", trial.name);
                failed += 1;
            }
        }
    }
    let _ = fs::remove_file(&scratch);
    for (outcome, count) in &outcomes {
        println!("  {outcome}: {count}");
    }
    println!("weeks of books: {} passed, {failed} failed", weeks - failed);
    failed == 0
}

fn model(out: &mut impl Write) -> std::io::Result<()> {
    let mut doors = Doors::default();
    for line in std::io::stdin().lines() {
        writeln!(out, "{}", doors.line(&line?))?;
    }
    Ok(())
}

fn write_stored(dir: &Path) -> std::io::Result<()> {
    fs::create_dir_all(dir)?;
    for run in stored() {
        fs::write(dir.join(format!("{}.stdin", run.name)), &run.bytes)?;
        fs::write(dir.join(format!("{}.stdout", run.name)), replay(&run.bytes).0)?;
    }
    Ok(())
}

fn main() -> std::io::Result<ExitCode> {
    let words: Vec<String> = std::env::args().skip(1).collect();
    let number = |place: usize, otherwise: u64| -> u64 {
        words.get(place).map_or(otherwise, |word| word.parse().expect(USAGE))
    };
    let weeks = || number(1, WEEKS);
    let seed = number(2, SEED);
    let mut out = BufWriter::new(std::io::stdout().lock());
    match words.first().map(String::as_str) {
        Some("script") => write_script(weeks() as usize, seed, &mut out)?,
        Some("model") => model(&mut out)?,
        Some("compare") => {
            drop(out);
            return Ok(if compare(weeks(), seed) { ExitCode::SUCCESS } else { ExitCode::FAILURE });
        }
        Some("stored") => write_stored(Path::new(words.get(1).expect(USAGE)))?,
        _ => panic!("{USAGE}"),
    }
    out.flush()?;
    Ok(ExitCode::SUCCESS)
}
