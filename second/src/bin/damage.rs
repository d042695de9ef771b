//! `damage SEED`: a book on standard input, a broken one to standard output.

use std::io::{Read, Write};

fn main() -> std::io::Result<()> {
    let seed = std::env::args().nth(1).and_then(|word| word.parse().ok());
    let seed: u64 = seed.expect("usage: damage SEED < BOOK");
    let mut bytes = Vec::new();
    std::io::stdin().read_to_end(&mut bytes)?;
    std::io::stdout().write_all(&second::damage::damage(seed, &bytes))
}
