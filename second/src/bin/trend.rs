//! `trend`: a book on standard input; a line a unit with its shape, with the argument `bits` its floats, or `refused N PLACE T`.

use std::io::{Read, Write};
use std::process::ExitCode;

use second::strip_text::{form_of, printed, WRONG_ARGUMENT};

fn main() -> std::io::Result<ExitCode> {
    let words: Vec<String> =
        std::env::args_os().skip(1).map(|word| word.to_string_lossy().into_owned()).collect();
    let Some(form) = form_of(&words) else {
        eprintln!("{WRONG_ARGUMENT}");
        return Ok(ExitCode::FAILURE);
    };
    let mut bytes = Vec::new();
    std::io::stdin().read_to_end(&mut bytes)?;
    std::io::stdout().write_all(printed(&bytes, form).as_bytes())?;
    Ok(ExitCode::SUCCESS)
}
