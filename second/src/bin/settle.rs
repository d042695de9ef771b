//! `settle`: a book on standard input; its listing, or `refused N PLACE T`.

use std::io::{Read, Write};

fn main() -> std::io::Result<()> {
    let mut bytes = Vec::new();
    std::io::stdin().read_to_end(&mut bytes)?;
    std::io::stdout().write_all(second::listing::settle(&bytes).as_bytes())
}
