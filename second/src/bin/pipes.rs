//! `pipes [SEED]`: how `settle` reads and writes. Books in dribs and drabs through a pipe, no input at
//! all, an input that ends in each record, an output that nobody takes, an input that cannot be read.
//! Tried on the second program's own `settle`, then on the library's where it is built.
//! Run from the top of the repository, see tests/pipes.

use std::fs::{self, File, OpenOptions};
use std::io::{self, Read, Write};
use std::path::Path;
use std::process::{Child, Command, ExitCode, ExitStatus, Stdio};
use std::thread;
use std::time::{Duration, Instant};

use second::book::*;
use second::chance::Chance;
use second::library::{announcement, library_command};
use second::listing::settle;
use second::make::make;
use second::quantities::REGIONS;
use second::write::to_bytes;

const LONGEST: Duration = Duration::from_secs(60);

/// How a book is dealt out: the size of the next piece, and how long to wait after it.
type Deal = fn(&mut Chance) -> (usize, Duration);

fn byte_by_byte(_: &mut Chance) -> (usize, Duration) {
    (1, Duration::ZERO)
}

fn in_pieces(chance: &mut Chance) -> (usize, Duration) {
    let size = chance.pick(&[1, 7, 24, 56, 367, 368, 372, 373, 1_000]);
    let any = chance.between(1, 2_000) as usize;
    (chance.pick(&[size, any]), Duration::from_micros(chance.pick(&[0, 0, 300, 2_000])))
}

fn at_once(_: &mut Chance) -> (usize, Duration) {
    (usize::MAX, Duration::ZERO)
}

struct Program {
    name: String,
    command: Vec<String>,
    /// The second program's language opens a closed output anew before the program starts.
    sees_closed_output: bool,
    /// The library's language ends every program with status 0: what failed is told on standard error alone.
    has_status: bool,
}

/// What a run printed, what it said on standard error, and how it ended.
struct Run {
    output: Vec<u8>,
    said: Vec<u8>,
    status: ExitStatus,
}

fn text(error: io::Error) -> String {
    error.to_string()
}

fn read_all(mut pipe: impl Read + Send + 'static) -> thread::JoinHandle<Vec<u8>> {
    thread::spawn(move || {
        let mut all = Vec::new();
        let _ = pipe.read_to_end(&mut all);
        all
    })
}

fn ended(child: &mut Child) -> Result<ExitStatus, String> {
    let began = Instant::now();
    loop {
        if let Some(status) = child.try_wait().map_err(text)? {
            return Ok(status);
        }
        if began.elapsed() > LONGEST {
            child.kill().and_then(|()| child.wait()).map_err(text)?;
            return Err(format!("still running after {} seconds", LONGEST.as_secs()));
        }
        thread::sleep(Duration::from_millis(1));
    }
}

impl Program {
    fn run(&self, input: Stdio, output: Stdio, feed: impl FnOnce(&mut Child)) -> Result<Run, String> {
        let mut child = Command::new(&self.command[0])
            .args(&self.command[1..])
            .stdin(input)
            .stdout(output)
            .stderr(Stdio::piped())
            .spawn()
            .map_err(|error| format!("does not start: {error}"))?;
        let output = child.stdout.take().map(read_all);
        let said = child.stderr.take().map(read_all);
        feed(&mut child);
        let status = ended(&mut child)?;
        let joined = |reader: Option<thread::JoinHandle<Vec<u8>>>| {
            reader.map_or(Vec::new(), |reader| reader.join().unwrap_or_default())
        };
        Ok(Run { output: joined(output), said: joined(said), status })
    }

    /// The book dealt out through a pipe gives what it gives at once.
    fn reads(&self, bytes: &[u8], deal: Deal, seed: u64) -> Result<(), String> {
        let run = self.run(Stdio::piped(), Stdio::piped(), |child| {
            let mut pipe = child.stdin.take().expect("a pipe");
            let mut chance = Chance::new(seed);
            let mut rest = bytes;
            while !rest.is_empty() {
                let (size, pause) = deal(&mut chance);
                let (piece, after) = rest.split_at(size.min(rest.len()));
                // A program that has refused need not read on.
                if pipe.write_all(piece).is_err() {
                    return;
                }
                thread::sleep(pause);
                rest = after;
            }
        })?;
        if run.status.code().is_none() {
            return Err(format!("ended by {}", run.status));
        }
        if !run.said.is_empty() {
            return Err(format!("says {}", String::from_utf8_lossy(&run.said)));
        }
        if run.output != settle(bytes).as_bytes() {
            return Err("prints something else than from a file".to_string());
        }
        Ok(())
    }

    /// A failure is told by a status other than 0; by a program that has none, on standard error.
    fn told(&self, run: &Run) -> Result<(), String> {
        if !run.status.success() {
            return Ok(());
        }
        if self.has_status {
            return Err("ends with status 0".to_string());
        }
        if run.said.is_empty() {
            return Err("ends with status 0 and says nothing on standard error".to_string());
        }
        Ok(())
    }

    /// An output that nobody takes is told.
    fn notices(&self, input: &Path, output: Stdio) -> Result<(), String> {
        let run = self.run(File::open(input).map_err(text)?.into(), output, |_| {})?;
        self.told(&run)
    }

    fn notices_no_reader(&self, input: &Path) -> Result<(), String> {
        let (reader, writer) = io::pipe().map_err(text)?;
        drop(reader);
        self.notices(input, writer.into())
    }

    fn notices_full_disk(&self, input: &Path) -> Result<(), String> {
        let full = OpenOptions::new().write(true).open("/dev/full").map_err(text)?;
        self.notices(input, full.into())
    }

    fn notices_closed_output(&self, input: &Path) -> Result<(), String> {
        let mut command = ["sh", "-c", "exec \"$@\" >&-", "sh"].map(str::to_string).to_vec();
        command.extend(self.command.iter().cloned());
        let closed = Program {
            name: self.name.clone(),
            command,
            sees_closed_output: true,
            has_status: self.has_status,
        };
        closed.notices(input, Stdio::null())
    }

    /// A directory cannot be read: told on standard error, nothing printed.
    fn tells_of_unreadable_input(&self) -> Result<(), String> {
        let run = self.run(File::open(".").map_err(text)?.into(), Stdio::piped(), |_| {})?;
        if run.said.is_empty() {
            return Err("says nothing on standard error".to_string());
        }
        if !run.output.is_empty() {
            return Err(format!("prints {}", String::from_utf8_lossy(&run.output)));
        }
        self.told(&run)
    }
}

/// Places inside each record of a book, and every border between two.
fn cuts(units: usize, requirements: usize) -> Vec<usize> {
    let mut sizes = vec![CONTENTS_SIZE, SETTINGS_SIZE];
    sizes.extend([FREQUENCY_SIZE; REGIONS]);
    sizes.extend(vec![UNIT_SIZE; units]);
    sizes.extend(vec![REQUIREMENT_SIZE; requirements]);
    let mut at = 0;
    let mut all = Vec::new();
    for size in sizes {
        all.extend([at, at + 1, at + size / 2, at + size - 1]);
        at += size;
    }
    all
}

struct Tried {
    passed: usize,
    failed: usize,
}

impl Tried {
    fn note(&mut self, program: &Program, what: &str, result: Result<(), String>) {
        match result {
            Ok(()) => self.passed += 1,
            Err(why) => {
                self.failed += 1;
                println!("FAILED {}: {what}: {why}", program.name);
            }
        }
    }
}

fn try_reading(program: &Program, seed: u64, tried: &mut Tried) {
    let made = |class: &str, roster: usize| make(seed, class, Some(roster)).expect("a class");
    let small = made("plain", 2);
    let bytes = to_bytes(&small);
    tried.note(program, "byte by byte", program.reads(&bytes, byte_by_byte, seed));
    for (turn, (class, roster)) in
        [("plain", 0), ("limits", 1), ("mixed", 5), ("ties", 76), ("sets", 512)].into_iter().enumerate()
    {
        let bytes = to_bytes(&made(class, roster));
        let name = format!("{roster} units in pieces");
        tried.note(program, &name, program.reads(&bytes, in_pieces, seed + turn as u64));
    }
    tried.note(program, "no bytes", program.reads(&[], at_once, seed));
    for cut in cuts(small.units.len(), small.requirements.len().min(3)) {
        tried.note(program, &format!("ends at {cut}"), program.reads(&bytes[..cut], at_once, seed));
    }
    let longer = [&bytes[..], &[0; 70_000]].concat();
    tried.note(program, "bytes that follow", program.reads(&longer, in_pieces, seed));
    let mut refused = to_bytes(&made("plain", 512));
    refused[0] = 0;
    tried.note(program, "refused at once, fed on", program.reads(&refused, in_pieces, seed));
}

fn try_ends(program: &Program, seed: u64, tried: &mut Tried) -> io::Result<()> {
    let input = Path::new("target").join(format!("pipes-{}", std::process::id()));
    let small = to_bytes(&make(seed, "plain", Some(2)).expect("a class"));
    let large = to_bytes(&make(seed, "sets", Some(512)).expect("a class"));
    for (what, bytes) in
        [("a small listing", &small[..]), ("a large one", &large), ("a refusal", &small[..9])]
    {
        fs::write(&input, bytes)?;
        let name = |ending: &str| format!("{what} to {ending}");
        tried.note(program, &name("no reader"), program.notices_no_reader(&input));
        tried.note(program, &name("a full disk"), program.notices_full_disk(&input));
        if program.sees_closed_output {
            tried.note(program, &name("a closed output"), program.notices_closed_output(&input));
        }
    }
    fs::remove_file(&input)?;
    tried.note(program, "an unreadable input", program.tells_of_unreadable_input());
    Ok(())
}

fn main() -> io::Result<ExitCode> {
    let seed = std::env::args().nth(1).map_or(2026, |word| word.parse().expect("usage: pipes [SEED]"));
    fs::create_dir_all("target")?;
    let library = library_command("settle");
    println!("{}", announcement(library.as_deref()));
    let own = std::env::current_exe()?.with_file_name("settle").display().to_string();
    let mut programs = vec![Program {
        name: "second".to_string(),
        command: vec![own],
        sees_closed_output: false,
        has_status: true,
    }];
    if let Some(command) = library {
        programs.push(Program {
            name: "library".to_string(),
            command,
            sees_closed_output: true,
            has_status: false,
        });
    }
    let mut tried = Tried { passed: 0, failed: 0 };
    for program in &programs {
        try_reading(program, seed, &mut tried);
        try_ends(program, seed, &mut tried)?;
    }
    println!("pipes: {} passed, {} failed", tried.passed, tried.failed);
    Ok(if tried.failed == 0 { ExitCode::SUCCESS } else { ExitCode::FAILURE })
}
