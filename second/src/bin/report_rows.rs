//! `report_rows`: rows of performance reports on standard input; a line of numbers each, up to
//! `refused 18 ROW COLUMN`.

use std::io::{Read, Write};

fn main() -> std::io::Result<()> {
    let mut bytes = Vec::new();
    std::io::stdin().read_to_end(&mut bytes)?;
    std::io::stdout().write_all(second::report_text::rows_printed(&bytes).as_bytes())
}
