//! `make SEED CLASS [ROSTER]`: a valid book to standard output; `make list`: the classes; `make ties FIRST COUNT`:
//! in how many books of so many seeds the rule of the share and the one before request R-9 differ, and where;
//! `make dropped FIRST COUNT`: in how many points are dropped, and in how many listings that shows (request R-3);
//! `make bench SHAPE UNITS REQUIREMENTS`: one that costs the most.

use std::collections::BTreeMap;
use std::io::Write;

use second::bench;
use second::cents::settle_book;
use second::make::{make, CLASSES, UNEQUAL};
use second::rules;
use second::write::to_bytes;

const USAGE: &str = "usage: make SEED CLASS [ROSTER] | make list | make ties FIRST COUNT | \
                     make dropped FIRST COUNT | make bench SHAPE UNITS REQUIREMENTS";

/// Books of each class and of each roster, and in how many of them the rules differ; for every share and direction
/// in how many books it is one that differs.
fn count_ties(first: u64, count: u64) {
    let mut by_class = BTreeMap::new();
    let mut by_roster = BTreeMap::new();
    let mut by_share = BTreeMap::new();
    for (class, _) in CLASSES {
        for seed in first..first + count {
            let book = make(seed, class, None).expect("a class of the list");
            let shares = rules::shares_of(&settle_book(&book).expect("a made book"));
            let all: &mut (u64, u64) = by_class.entry(class).or_default();
            *all = (all.0 + 1, all.1 + u64::from(!shares.is_empty()));
            if UNEQUAL.contains(&class) {
                let all: &mut (u64, u64) = by_roster.entry(book.units.len()).or_default();
                *all = (all.0 + 1, all.1 + u64::from(!shares.is_empty()));
            }
            for (share, direction) in shares {
                *by_share.entry((share, direction)).or_insert(0) += 1;
            }
        }
    }
    println!("the rules differ");
    by_class.iter().for_each(|(class, (all, differ))| println!("  {class}: in {differ} of {all} books"));
    println!("of {}", UNEQUAL.join(" and "));
    by_roster
        .iter()
        .for_each(|(roster, (all, differ))| println!("  {roster} units: in {differ} of {all} books"));
    println!("in books of all classes");
    by_share.iter().for_each(|((share, direction), books)| println!("  {share}, {direction}: {books}"));
}

/// Books of each class, in how many of them a point is dropped, and in how many the rule of performance before
/// request R-3 gives another listing.
fn count_dropped(first: u64, count: u64) {
    let mut all = [0; 3];
    for (class, _) in CLASSES {
        let mut counts = [0; 3];
        for seed in first..first + count {
            let book = make(seed, class, None).expect("a class of the list");
            let settled = settle_book(&book).expect("a made book");
            counts[0] += 1;
            counts[1] += u64::from(rules::dropped_in(&book) > 0);
            counts[2] += u64::from(rules::dropping_tells(&book, &settled));
        }
        let [books, dropped, tell] = counts;
        println!(
            "{class}: points dropped in {dropped} of {books} books, another listing without that in {tell}"
        );
        all.iter_mut().zip(counts).for_each(|(sum, count)| *sum += count);
    }
    let [books, dropped, tell] = all;
    println!("all: points dropped in {dropped} of {books} books, another listing without that in {tell}");
}

fn main() -> std::io::Result<()> {
    let words: Vec<String> = std::env::args().skip(1).collect();
    if words == ["list"] {
        CLASSES.iter().for_each(|(name, about)| println!("{name}: {about}"));
        return Ok(());
    }
    if let [word, first, count] = &words[..] {
        if word == "dropped" {
            count_dropped(first.parse().expect(USAGE), count.parse().expect(USAGE));
            return Ok(());
        }
        if word == "ties" {
            count_ties(first.parse().expect(USAGE), count.parse().expect(USAGE));
            return Ok(());
        }
    }
    if let [word, shape, units, requirements] = &words[..] {
        assert_eq!(word, "bench", "{USAGE}");
        let number = |word: &str| word.parse().expect(USAGE);
        let book = bench::book(shape, number(units), number(requirements)).expect("spread or ties");
        return std::io::stdout().write_all(&to_bytes(&book));
    }
    let seed: u64 = words.first().and_then(|word| word.parse().ok()).expect(USAGE);
    let class = words.get(1).expect(USAGE);
    let roster: Option<usize> = words.get(2).map(|word| word.parse().expect(USAGE));
    assert!(roster.is_none_or(|roster| roster <= 512), "a roster has at most 512 units");
    let book = make(seed, class, roster).expect("no such class, see make list");
    std::io::stdout().write_all(&to_bytes(&book))
}
