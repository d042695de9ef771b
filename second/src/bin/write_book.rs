//! `write_book`: a book's text on standard input; the book's bytes, or `text LINE`, or `refused N PLACE T`.

use std::io::{Read, Write};

fn main() -> std::io::Result<()> {
    let mut text = Vec::new();
    std::io::stdin().read_to_end(&mut text)?;
    std::io::stdout().write_all(&second::book_text::written_of_text(&text))
}
