//! `known`: the books whose answer is known beforehand (tests/worked, tests/vectors,
//! and the sweep of every field limit and every order of refusals, with place and t), through the
//! second program and, where it is built, the library.
//! Run from the top of the repository, see tests/compare.

use std::fs;
use std::path::Path;
use std::process::ExitCode;
use std::sync::atomic::{AtomicUsize, Ordering};

use second::library::{announcement, library_command, library_output};
use second::listing::settle;
use second::sweep::Trial;
use second::vectors::check_output;
use second::{sweep, vectors, worked, write};

const WORKED: &str = "tests/worked";
const VECTORS: &str = "tests/vectors";
const MOST_NAMED: usize = 40;

/// A program's name, and what it prints for a book.
struct Program {
    name: &'static str,
    command: Option<Vec<String>>,
}

impl Program {
    fn output(&self, bytes: &[u8]) -> Result<String, String> {
        let Some(command) = &self.command else {
            return Ok(settle(bytes));
        };
        let worker = format!("{:?}", std::thread::current().id()).replace(['(', ')'], "-");
        let scratch = Path::new("target").join(format!("known-{}-{worker}", std::process::id()));
        let output = library_output(command, bytes, &scratch);
        let _ = fs::remove_file(&scratch);
        String::from_utf8(output?).map_err(|_| "output is no text".to_string())
    }
}

fn check_worked(program: &Program, name: &str) -> Result<(), String> {
    let file = |ending: &str| format!("{WORKED}/{name}.{ending}");
    let bytes = fs::read(file("book")).map_err(|error| error.to_string())?;
    let kept = fs::read_to_string(file("listing")).map_err(|error| error.to_string())?;
    if program.output(&bytes)? == kept {
        Ok(())
    } else {
        Err("prints another listing".to_string())
    }
}

/// A refusal is printed alone; a settled book is printed as the second program does.
fn check_trial(program: &Program, trial: &Trial) -> Result<(), String> {
    let expected = match trial.refusal {
        Some(refusal) => format!("refused {refusal}\n"),
        None => settle(&trial.bytes),
    };
    let output = program.output(&trial.bytes)?;
    if output == expected && output.starts_with("refused ") == trial.refusal.is_some() {
        Ok(())
    } else {
        let lines = |text: &str| text.lines().next().unwrap_or("nothing").to_string();
        Err(format!("expected {}, printed {}", lines(&expected), lines(&output)))
    }
}

type Check = Box<dyn Fn(&Program) -> Result<(), String> + Sync>;

/// A book whose answer is known, and the test of what a program prints for it.
struct Known {
    name: String,
    check: Check,
}

fn all_known() -> Vec<Known> {
    let mut all = Vec::new();
    for worked in worked::all() {
        let name = worked.name;
        all.push(Known {
            name: name.to_string(),
            check: Box::new(move |program| check_worked(program, name)),
        });
    }
    for vector in vectors::all(Path::new(VECTORS)) {
        let name = vector.name.to_string();
        let check = move |program: &Program| {
            let output = program.output(&write::to_bytes(&vector.book))?;
            check_output(Path::new(VECTORS), &vector, &output)
        };
        all.push(Known { name, check: Box::new(check) });
    }
    for trial in sweep::all() {
        let name = trial.name.clone();
        all.push(Known { name, check: Box::new(move |program| check_trial(program, &trial)) });
    }
    all
}

/// Every known book through a program, as many at a time as there are processors.
fn failures(program: &Program, all: &[Known]) -> Vec<String> {
    let workers = std::thread::available_parallelism().map_or(1, |workers| workers.get());
    let next = AtomicUsize::new(0);
    let work = || {
        let mut failed = Vec::new();
        while let Some(known) = all.get(next.fetch_add(1, Ordering::Relaxed)) {
            if let Err(what) = (known.check)(program) {
                failed.push(format!("FAILED {} on {}: {what}", program.name, known.name));
            }
        }
        failed
    };
    std::thread::scope(|scope| {
        let running: Vec<_> = (0..workers).map(|_| scope.spawn(work)).collect();
        running.into_iter().flat_map(|worker| worker.join().expect("a worker")).collect()
    })
}

fn main() -> ExitCode {
    fs::create_dir_all("target").expect("run from the top of the repository");
    let command = library_command("settle");
    println!("{}", announcement(command.as_deref()));
    let mut programs = vec![Program { name: "second", command: None }];
    if command.is_some() {
        programs.push(Program { name: "library", command });
    }
    let all = all_known();
    let failed: Vec<String> = programs.iter().flat_map(|program| failures(program, &all)).collect();
    failed.iter().take(MOST_NAMED).for_each(|line| println!("{line}"));
    println!("known: {} passed, {} failed", programs.len() * all.len() - failed.len(), failed.len());
    if failed.is_empty() {
        ExitCode::SUCCESS
    } else {
        ExitCode::FAILURE
    }
}
