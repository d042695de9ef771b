//! `week`: books one after another on standard input; count and default of every unit and every region's
//! residual, or `refused N BOOK PLACE T`.

use std::io::{Read, Write};

fn main() -> std::io::Result<()> {
    let mut bytes = Vec::new();
    std::io::stdin().read_to_end(&mut bytes)?;
    let (printed, said) = second::replay::replay(&bytes);
    std::io::stderr().write_all(said.as_bytes())?;
    std::io::stdout().write_all(printed.as_bytes())
}
