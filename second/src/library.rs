//! Running the library's programs, `settle` on a book, `week` on several, `sheet` on factors, where they are built.

use std::fs;
use std::io::Read;
use std::path::Path;
use std::process::{Child, Command, Stdio};
use std::thread;
use std::time::{Duration, Instant};

const LONGEST: Duration = Duration::from_secs(60);

/// The command that runs a program of the library: the environment variable of its name in capitals (SETTLE,
/// WEEK, SHEET), split at spaces, or what tests/tools/program says of the program at its place under the top of the
/// repository, on whatever processor; None where there is none.
pub fn library_command(name: &str) -> Option<Vec<String>> {
    let words = |line: &str| line.split_whitespace().map(str::to_string).collect();
    match std::env::var(name.to_uppercase()) {
        Ok(line) => Some(words(&line)),
        Err(_) if Path::new("target/bin").join(name).exists() => {
            let said = Command::new("tests/tools/program")
                .args(["--line", name])
                .output()
                .expect("tests/tools/program");
            Some(words(&String::from_utf8_lossy(&said.stdout)))
        }
        Err(_) => None,
    }
}

/// The line that says whether the library takes part.
pub fn announcement(command: Option<&[String]>) -> String {
    match command {
        Some(command) => format!("library: {}", command.join(" ")),
        None => "library: not built yet, second program alone".to_string(),
    }
}

fn wait_in_time(child: &mut Child) -> Result<(), String> {
    let began = Instant::now();
    loop {
        match child.try_wait().map_err(|error| error.to_string())? {
            Some(status) if status.code().is_none() => return Err(format!("library ended by {status}")),
            Some(_) => return Ok(()),
            None if began.elapsed() > LONGEST => {
                child.kill().and_then(|()| child.wait()).map_err(|error| error.to_string())?;
                return Err(format!("library took over {} seconds", LONGEST.as_secs()));
            }
            None => thread::sleep(Duration::from_millis(1)),
        }
    }
}

/// All that comes out of a pipe, read beside the program so that it never fills up.
fn read_all(pipe: Option<impl Read + Send + 'static>) -> thread::JoinHandle<std::io::Result<Vec<u8>>> {
    thread::spawn(move || {
        let mut all = Vec::new();
        pipe.map_or(Ok(0), |mut pipe| pipe.read_to_end(&mut all))?;
        Ok(all)
    })
}

/// What the library prints, and what it says on standard error where that is a pipe. The bytes go in as a
/// file, so that no pipe can fill up. Its exit status is left open by document 01; only an end by a signal is
/// an error.
fn run(command: &[String], bytes: &[u8], scratch: &Path, error: Stdio) -> Result<[Vec<u8>; 2], String> {
    let (program, words) = command.split_first().ok_or("the command is empty")?;
    fs::write(scratch, bytes).map_err(|error| error.to_string())?;
    let input = fs::File::open(scratch).map_err(|error| error.to_string())?;
    let mut child = Command::new(program)
        .args(words)
        .stdin(input)
        .stdout(Stdio::piped())
        .stderr(error)
        .spawn()
        .map_err(|error| format!("library does not start: {error}"))?;
    let (printed, said) = (read_all(child.stdout.take()), read_all(child.stderr.take()));
    let waited = wait_in_time(&mut child);
    let joined = |reader: thread::JoinHandle<std::io::Result<Vec<u8>>>| {
        reader.join().map_err(|_| "reader failed")?.map_err(|error| error.to_string())
    };
    let both = [joined(printed)?, joined(said)?];
    waited.map(|()| both)
}

/// What the library prints of a book.
pub fn library_output(command: &[String], bytes: &[u8], scratch: &Path) -> Result<Vec<u8>, String> {
    run(command, bytes, scratch, Stdio::inherit()).map(|[printed, _]| printed)
}

/// What the library prints, and what it says on standard error.
pub fn library_outputs(command: &[String], bytes: &[u8], scratch: &Path) -> Result<[Vec<u8>; 2], String> {
    run(command, bytes, scratch, Stdio::piped())
}
