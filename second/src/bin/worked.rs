//! `worked DIR`: writes every worked book as NAME.txt, NAME.book and NAME.listing.

use std::fs;
use std::path::Path;

use second::{listing, worked};

fn main() -> std::io::Result<()> {
    let dir = std::env::args().nth(1).expect("usage: worked DIR");
    let dir = Path::new(&dir);
    fs::create_dir_all(dir)?;
    for worked in worked::all() {
        let bytes = worked.bytes();
        fs::write(dir.join(format!("{}.txt", worked.name)), worked.text())?;
        fs::write(dir.join(format!("{}.listing", worked.name)), listing::settle(&bytes))?;
        fs::write(dir.join(format!("{}.book", worked.name)), bytes)?;
    }
    Ok(())
}
