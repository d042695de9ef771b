//! `sheet`: two lines on standard input, performances and factors; `sheet BOOK REQUIREMENT`: one line, the factors,
//! and the performances are those of a book's requirement. Prints whether the factors are possible, see README.md.

use std::io::{Error, Read, Write};

use second::sheet_text::{of_book, of_text, whole_number};

const USAGE: &str = "usage: sheet < PERFORMANCES_AND_FACTORS | sheet BOOK REQUIREMENT < FACTORS";

fn main() -> std::io::Result<()> {
    let words: Vec<String> = std::env::args().skip(1).collect();
    let mut text = Vec::new();
    let printed = match &words[..] {
        [] => {
            std::io::stdin().read_to_end(&mut text)?;
            of_text(&text)
        }
        [path, number] => {
            let number = whole_number(number.as_bytes()).ok_or(Error::other(USAGE))?;
            let book = std::fs::read(path)?;
            std::io::stdin().read_to_end(&mut text)?;
            of_book(&book, number, &text)
        }
        _ => return Err(Error::other(USAGE)),
    };
    std::io::stdout().write_all(printed.as_bytes())
}
