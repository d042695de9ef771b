//! `read_book`: a book on standard input; its text, or `refused N PLACE T`.

use std::io::{Read, Write};

fn main() -> std::io::Result<()> {
    let mut bytes = Vec::new();
    std::io::stdin().read_to_end(&mut bytes)?;
    std::io::stdout().write_all(second::book_text::printed_of_book(&bytes).as_bytes())
}
