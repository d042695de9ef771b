//! `lines share COUNT [SEED]` and `lines KIND COUNT [SEED]`: lines for `share` and for `records`; `lines ties COUNT [SEED]`:
//! in how many of those for `share` the rule and the one before request R-9 differ.

use second::{lines, rules};

/// Whether the rules differ about the total and the weights of a line.
fn tells(line: &str) -> bool {
    let numbers: Vec<i128> = line.split(' ').map(|word| word.parse().expect("a number")).collect();
    rules::differ(numbers[0], &numbers[1..])
}

fn main() {
    let words: Vec<String> = std::env::args().skip(1).collect();
    let count = words.get(1).and_then(|word| word.parse().ok()).unwrap_or(0);
    let seed = words.get(2).and_then(|word| word.parse().ok()).unwrap_or(0);
    if words[0] == "ties" {
        let apart = (0..count).filter(|&nth| tells(&lines::share(seed, nth))).count();
        println!("the rules differ in {apart} of {count} lines");
        return;
    }
    for nth in 0..count {
        match words[0].as_str() {
            "share" => println!("{}", lines::share(seed, nth)),
            kind => println!("{}", lines::record(kind, seed, nth)),
        }
    }
}
