//! `calls script COUNT [SEED [answers]]`: a script of random calls; `calls model`: reads a script and says
//! of each call what it replies and leaves. See README.md.

use std::io::{BufWriter, Write};

use second::boundary::Caller;
use second::script::Script;

const USAGE: &str = "usage: calls script COUNT [SEED [answers]] | calls model";

fn main() -> std::io::Result<()> {
    let words: Vec<String> = std::env::args().skip(1).collect();
    let mut out = BufWriter::new(std::io::stdout().lock());
    match words.first().map(String::as_str) {
        Some("script") => {
            let count = words.get(1).and_then(|word| word.parse().ok()).expect(USAGE);
            let seed = words.get(2).map_or(0, |word| word.parse().expect(USAGE));
            let answers = words.get(3).is_some_and(|word| word == "answers");
            let mut script = Script::new(seed, answers, &mut out);
            script.write(count);
            script.runs();
        }
        Some("model") => {
            let mut caller = Caller::default();
            for line in std::io::stdin().lines() {
                if let Some(answer) = caller.line(&line?) {
                    writeln!(out, "{answer}")?;
                }
            }
        }
        _ => panic!("{USAGE}"),
    }
    out.flush()
}
