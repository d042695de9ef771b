//! `records`: lines on standard input, one answer each; see README.md.

fn main() -> std::io::Result<()> {
    for line in std::io::stdin().lines() {
        println!("{}", second::records::record_line(&line?));
    }
    Ok(())
}
