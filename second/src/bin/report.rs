//! `report [VERSION]`: a book on standard input; the rows of its performance report, or `refused N
//! PLACE T`.

use std::io::{Read, Write};
use std::process::ExitCode;

use second::report_text::{report_printed, version_of, WRONG_VERSION};

fn main() -> std::io::Result<ExitCode> {
    let words: Vec<String> =
        std::env::args_os().skip(1).map(|word| word.to_string_lossy().into_owned()).collect();
    let Some(version) = version_of(&words) else {
        eprintln!("{WRONG_VERSION}");
        return Ok(ExitCode::FAILURE);
    };
    let mut bytes = Vec::new();
    std::io::stdin().read_to_end(&mut bytes)?;
    std::io::stdout().write_all(report_printed(&bytes, version).as_bytes())?;
    Ok(ExitCode::SUCCESS)
}
