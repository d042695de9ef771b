//! `web shown`: lines `NAME FILE KEYS` on standard input, keys as `watch` takes them; prints what the page of web/ shows of each. `web factors RANDOM SEED`:
//! pairs of 128-bit words, four halves a line in hexadecimal digits; `web products`: reads such lines and prints each product's two halves (see tests/web).

use std::ffi::OsString;
use std::io::{BufRead, BufWriter, Write};

use second::web::{factors, product, shown};

const USAGE: &str = "usage: web shown | web factors RANDOM SEED | web products";

fn hex(words: &[u64]) -> String {
    words.iter().map(|word| format!("{word:016x}")).collect::<Vec<_>>().join(" ")
}

fn halves(line: &str) -> [u64; 4] {
    let words: Vec<u64> =
        line.split(' ').map(|word| u64::from_str_radix(word, 16).expect("hexadecimal digits")).collect();
    words.try_into().expect("four halves")
}

fn main() -> std::io::Result<()> {
    let words: Vec<String> = std::env::args().skip(1).collect();
    let words: Vec<&str> = words.iter().map(String::as_str).collect();
    let mut out = BufWriter::new(std::io::stdout().lock());
    match words[..] {
        ["shown"] => {
            for line in std::io::stdin().lock().lines() {
                let line = line?;
                let mut parts = line.splitn(3, ' ');
                let [name, file, keys] = [0; 3].map(|_| parts.next().expect(USAGE));
                let bytes = std::fs::read(file)?;
                write!(out, "{}", shown(name, &OsString::from(file), &bytes, keys.as_bytes())?)?;
            }
        }
        ["factors", random, seed] => {
            for four in factors(random.parse().expect(USAGE), seed.parse().expect(USAGE)) {
                writeln!(out, "{}", hex(&four))?;
            }
        }
        ["products"] => {
            for line in std::io::stdin().lock().lines() {
                writeln!(out, "{}", hex(&product(halves(&line?))))?;
            }
        }
        _ => panic!("{USAGE}"),
    }
    out.flush()
}
