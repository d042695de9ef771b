//! `watch [live] BOOK..`: the books on a panel of four lines; keys on standard input, a byte each.

use std::ffi::OsString;
use std::io::{Read, Write};
use std::process::ExitCode;

use second::watch::{arguments, printed, watch, NO_BOOK};

fn main() -> std::io::Result<ExitCode> {
    let words: Vec<OsString> = std::env::args_os().skip(1).collect();
    let Some((live, names)) = arguments(&words) else {
        eprintln!("{NO_BOOK}");
        return Ok(ExitCode::FAILURE);
    };
    let mut out = std::io::stdout().lock();
    // Where the input fails it has ended.
    let keys = std::io::stdin().lock().bytes().map_while(Result::ok);
    watch(names, keys, |screen| {
        out.write_all(&printed(screen, live))?;
        out.flush()
    })?;
    Ok(ExitCode::SUCCESS)
}
