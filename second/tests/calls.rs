//! The model of the calls: a chain of them gives a book's own answers, a refusal changes nothing, a stored
//! tally is refused over another book's lists, and random scripts reach every refusal that a call can give
//! and both sides of every limit.

use std::collections::{BTreeMap, BTreeSet};

use second::book::*;
use second::boundary::*;
use second::cents::{settle_book, Settled};
use second::make::{make, CLASSES};
use second::performance::{Reason, Standing};
use second::quantities::*;
use second::script::Script;
use second::write::to_bytes;

/// 11 has no place and no t.
const REFUSED_11: Step = Err(Refusal { number: 11, place: 0, t: 0 });

fn lent_for(units: usize) -> Lent {
    let mut lent = Lent::default();
    for (name, ..) in NAMES {
        lent.fill(name, NUMBERS_OF_A_ROW * units + SUMS_OF_A_REGION * REGIONS, 77);
    }
    lent
}

fn standing_word(standing: Standing) -> i128 {
    match standing {
        Standing::Live => 0,
        Standing::Default(Reason::UnreliableRegion) => 1,
        Standing::Default(Reason::BadUnit) => 2,
        Standing::Default(Reason::NoGoodUnit) => 3,
    }
}

fn settled_reply(settled: &Settled) -> [i128; REPLY_WORDS] {
    [
        settled.lines.len() as i128,
        settled.rcr,
        settled.pool,
        settled.used_pool,
        settled.unused_pool,
        settled.used_unplaced,
        settled.unused_unplaced,
        standing_word(settled.lines.last().expect("a residual").member.standing),
    ]
}

fn assert_answer(before: &Lent, lent: &Lent, settled: &Settled, name: &str) {
    assert_eq!(lent.list("reply").numbers[..REPLY_WORDS], settled_reply(settled), "{name}");
    for (place, line) in settled.lines.iter().enumerate() {
        let row = COLUMNS.map(|column| lent.list(column).numbers[place]);
        let expected = [line.member.payment_performance, line.factor, line.payment, line.used, line.unused];
        assert_eq!(row, expected, "{name}, member {place}");
    }
    // Numbers past those named stay.
    for column in COLUMNS {
        let past = |lent: &Lent| lent.list(column).numbers[settled.lines.len()..].to_vec();
        assert_eq!(past(lent), past(before), "{name}, {column}");
    }
}

#[test]
fn a_chain_gives_the_books_answers() {
    for seed in 0..12 {
        for (class, _) in CLASSES {
            let roster = [0, 1, 5, 13][seed as usize % 4];
            let book = make(seed, class, Some(roster)).expect("a class");
            let bytes = to_bytes(&book);
            let all = settle_book(&book).expect("a made book");
            let name = format!("{seed} {class}");
            let mut lent = lent_for(roster);
            let mut at = CONTENTS_SIZE;
            assert_eq!(lent.call("contents", &bytes), Ok(()), "{name}");
            let mut take = |lent: &mut Lent, kind: &str, size: usize| {
                assert_eq!(lent.call(kind, &bytes[at..]), Ok(()), "{name} {kind}");
                at += size;
                at - size
            };
            take(&mut lent, "settings", SETTINGS_SIZE);
            for _ in 0..REGIONS {
                take(&mut lent, "frequency", FREQUENCY_SIZE);
            }
            for _ in 0..roster {
                take(&mut lent, "unit", UNIT_SIZE);
            }
            for settled in &all {
                let start = take(&mut lent, "requirement", REQUIREMENT_SIZE);
                let before = lent.clone();
                assert_eq!(lent.call("answer", &bytes[start..]), Ok(()), "{name}");
                assert_answer(&before, &lent, settled, &name);
            }
            assert_eq!(lent.call("requirement", &bytes), REFUSED_11, "{name}");
        }
    }
}

/// A record's call and bytes, from the settings on.
fn records_of(book: &Book) -> Vec<(&'static str, Vec<u8>)> {
    let bytes = to_bytes(book);
    let sizes = [
        ("settings", SETTINGS_SIZE, 1),
        ("frequency", FREQUENCY_SIZE, REGIONS),
        ("unit", UNIT_SIZE, book.units.len()),
        ("requirement", REQUIREMENT_SIZE, book.requirements.len()),
    ];
    let mut at = CONTENTS_SIZE;
    let mut all = Vec::new();
    for (kind, size, count) in sizes {
        for _ in 0..count {
            all.push((kind, bytes[at..at + size].to_vec()));
            at += size;
        }
    }
    all
}

fn book_of(seed: u64, units: usize, interval: i128) -> Book {
    let mut book = make(seed, "plain", Some(units)).expect("a class");
    book.settings.interval = interval;
    book.requirements.truncate(1);
    book
}

/// What a call replies with another tally over these lists, which stay as they are.
fn reply_with(lent: &Lent, tally: &[i128], kind: &str, part: &[u8]) -> Step {
    let mut lent = lent.clone();
    lent.put("tally", 0, tally);
    lent.call(kind, part)
}

fn words_of(lent: &Lent) -> Vec<i128> {
    lent.list("tally").numbers[..TALLY_WORDS].to_vec()
}

/// Six lists, laid out as they are agreed on: worked by hand from two units of one region.
#[test]
fn what_a_chain_leaves() {
    let mut book = second::worked::listing_book();
    book.units[1].good[74] = false;
    book.units[1].readings[74] = 0;
    let mut lent = lent_for(2);
    lent.call("contents", &to_bytes(&book)).unwrap();
    for (kind, bytes) in records_of(&book) {
        assert_eq!(lent.call(kind, &bytes), Ok(()));
    }
    let numbers =
        |name: &str, from: usize, count: usize| lent.list(name).numbers[from..from + count].to_vec();
    assert_eq!(numbers("measures", 0, 75), [20_000; 75]);
    assert_eq!(numbers("measures", 75, 300), [0; 300]);
    // 100 cMW above the start at every point; the bad load adds nothing.
    assert_eq!(numbers("sums", 0, 75), [7_500; 75]);
    assert_eq!(numbers("sums", 75, 675), [0; 675]);
    assert_eq!(numbers("sums", 750, 1), [77]);
    assert_eq!(numbers("figures", 0, 10), [7, 100_000, 1, 0, 0, 0, -1_000, 0, 0, 0]);
    for region in 1..REGIONS {
        assert_eq!(numbers("figures", 10 * region, 10), [7, 0, 0, 0, 0, 0, 0, 0, 0, 0]);
    }
    assert_eq!(numbers("figures", 50, 1), [77]);
    assert_eq!(numbers("numbers", 0, 3), [1, 2, 77]);
    assert_eq!(numbers("homes", 0, 3), [1, 0, 77]);
    assert_eq!(numbers("rows", 0, 8), [11_250_000_000, 0, 0, 0, -1_000, 0, 0, 0]);
    // Minus 30 cMW at 74 points, and the 5,000 below its start that a bad 0 makes.
    assert_eq!(numbers("rows", 8, 8), [20_000 * 75 * (5_000 - 74 * 30), 0, 0, 0, -1_000, 0, 0, 0]);
    assert_eq!(numbers("rows", 16, 1), [77]);
}

/// The lists over a book whose dropped points were worked by hand (tests/worked).
fn chain_over(name: &str) -> (Book, Lent) {
    let book = second::worked::all().into_iter().find(|worked| worked.name == name).expect("a book").book;
    let mut lent = lent_for(book.units.len());
    lent.call("contents", &to_bytes(&book)).unwrap();
    for (kind, bytes) in records_of(&book) {
        assert_eq!(lent.call(kind, &bytes), Ok(()));
    }
    (book, lent)
}

/// A dropped point's FM is lent with 10,000,001 more; sums have every point, rows the kept ones alone.
#[test]
fn dropped_points_are_lent_with_their_measure() {
    let (_, lent) = chain_over("dropped_edges");
    let numbers =
        |name: &str, from: usize, count: usize| lent.list(name).numbers[from..from + count].to_vec();
    let by_hand = [
        16_500, 10_013_351, 13_350, 13_350, 10_010_516, 10_964, 8_368, 9_031, 10_000_002, 20_001, 0, -20_000,
        -16_500, 9_986_651, -13_350, -13_350, 9_989_486, -10_964, -8_368, -9_031, 10_000_000, -20_001, 0,
    ];
    assert_eq!(numbers("measures", 0, 23), by_hand);
    assert_eq!(numbers("measures", 23, 52), [0; 52]);
    let other = [&[20_000; 8][..], &[-20_000; 8], &[0; 59]].concat();
    assert_eq!(numbers("measures", 75, 75), other);
    assert_eq!(numbers("measures", 150, 225), [0; 225]);
    // t 2 and t 5 are dropped: unit 1 is 3,000 - 462·t away, unit 2 450 - 162·t.
    assert_eq!(numbers("sums", 1, 1), [2_076 + 126]);
    assert_eq!([numbers("sums", 4, 1), numbers("sums", 79, 1)], [[690], [-360]]);
    assert_eq!(numbers("figures", 0, 4), [112, 30_000, 1, 1]);
    assert_eq!(numbers("rows", 0, 2), [40_657_584, 517_853_232]);
    assert_eq!(numbers("rows", 8, 2), [-40_860_216, 248_740_632]);
    let (_, lent) = chain_over("dropped_reliability");
    assert_eq!(lent.list("measures").numbers[..13], {
        let mut all = [-10_000; 13];
        (all[0], all[10], all[11], all[12]) = (9_987_501, 45_000, 10_015_001, 10_000);
        all
    });
    assert_eq!(lent.list("figures").numbers[2..4], [1, 1], "reliable by them");
}

/// All of a region's lent measures one number: what a unit's row and an answer's RCR make of it, or the refusal.
#[test]
fn what_a_lent_measure_says() {
    let book = second::worked::listing_book();
    let mut taken = lent_for(2);
    taken.call("contents", &to_bytes(&book)).unwrap();
    let records = records_of(&book);
    for (kind, bytes) in &records[..6] {
        assert_eq!(taken.call(kind, bytes), Ok(()));
    }
    // The number, what it weighs, and whether its FM is above 0.
    let cases = [
        (-5_000_000, Some((-5_000_000, false))),
        (-1, Some((-1, false))),
        (0, Some((0, false))),
        (1, Some((1, true))),
        (5_000_000, Some((5_000_000, true))),
        (5_000_001, Some((0, false))),
        (9_980_001, Some((0, false))),
        (10_000_000, Some((0, false))),
        (10_000_001, Some((0, false))),
        (10_000_002, Some((0, true))),
        (10_020_001, Some((0, true))),
        (15_000_001, Some((0, true))),
        (-5_000_001, None),
        (15_000_002, None),
        (i32::MIN as i128, None),
        (i32::MAX as i128, None),
    ];
    for (number, said) in cases {
        let mut lent = taken.clone();
        let honest = lent.list("measures").numbers[..POINTS].to_vec();
        lent.put("measures", 0, &[number; POINTS]);
        let reply = lent.call("unit", &records[6].1);
        let Some((weight, raises)) = said else {
            assert_eq!(reply, REFUSED_11, "{number}");
            // Read alone, at the last point, by the unit and by the answer.
            lent.put("measures", 0, &honest);
            lent.put("measures", POINTS - 1, &[number]);
            assert_eq!(lent.call("unit", &records[6].1), REFUSED_11, "{number}");
            lent.put("measures", 0, &honest);
            for (kind, bytes) in &records[6..] {
                assert_eq!(lent.call(kind, bytes), Ok(()));
            }
            lent.put("measures", SERIES - 1, &[number]);
            assert_eq!(lent.call("answer", &records[8].1), REFUSED_11, "{number}");
            continue;
        };
        assert_eq!(reply, Ok(()), "{number}");
        // 7,500 away at each of 75 points.
        let row = [weight.max(0) * 7_500 * 75, weight.min(0) * 7_500 * 75];
        assert_eq!(lent.list("rows").numbers[..2], row, "{number}");
        assert_eq!(lent.list("sums").numbers[..POINTS], [7_500; POINTS], "{number}");
        for (kind, bytes) in &records[7..] {
            assert_eq!(lent.call(kind, bytes), Ok(()));
        }
        assert_eq!(lent.call("answer", &records[8].1), Ok(()), "{number}");
        assert_eq!(lent.list("reply").numbers[1], if raises { 7_500 } else { 0 }, "RCR of {number}");
    }
}

/// A tally stored at every step of a book is good for as long as no frequency record of another book is taken.
#[test]
fn a_stored_tally_over_the_next_books_lists() {
    for (interval, next_interval) in [(7, 8), (0, 1 << 31), (4_294_967_295, 0), (9, 9)] {
        let (first, next) = (book_of(1, 3, interval), book_of(2, 5, next_interval));
        let mut lent = lent_for(5);
        lent.call("contents", &to_bytes(&first)).unwrap();
        let mut calls = Vec::new();
        for (kind, bytes) in records_of(&first) {
            calls.push((words_of(&lent), kind, bytes.clone()));
            assert_eq!(lent.call(kind, &bytes), Ok(()));
        }
        // While no unit is taken every sum has to be 0: the first unit's tally is told by the sums already.
        calls.remove(1 + REGIONS);
        let ended = words_of(&lent);
        let requirement = calls.last().expect("a requirement").2.clone();
        calls.push((ended.clone(), "answer", requirement));
        calls.push((ended, "member", [2u32, 0, 31].map(u32::to_le_bytes).concat()));
        lent.call("contents", &to_bytes(&next)).unwrap();
        for (records, (next_kind, next_bytes)) in records_of(&next).into_iter().enumerate() {
            for (tally, kind, bytes) in &calls {
                let reads = ["unit", "answer", "member"].contains(kind);
                let told = reads && records >= 2 && interval != next_interval;
                let reply = reply_with(&lent, tally, kind, bytes);
                let expected = if told { REFUSED_11 } else { Ok(()) };
                assert_eq!(reply, expected, "{kind} after {records} records of {next_interval}");
            }
            assert_eq!(lent.call(next_kind, &next_bytes), Ok(()));
        }
    }
}

/// A frequency record of the stored book takes its region back, and then it is the next book that is refused.
#[test]
fn a_stored_frequency_record_spoils_the_next_book() {
    let (first, next) = (book_of(1, 1, 7), book_of(2, 1, 8));
    let mut lent = lent_for(1);
    lent.call("contents", &to_bytes(&first)).unwrap();
    let stored = records_of(&first);
    lent.call("settings", &stored[0].1).unwrap();
    let tally = words_of(&lent);
    lent.call("contents", &to_bytes(&next)).unwrap();
    let records = records_of(&next);
    for (kind, bytes) in &records[..6] {
        assert_eq!(lent.call(kind, bytes), Ok(()));
    }
    let now = words_of(&lent);
    assert_eq!(reply_with(&lent, &now, "unit", &records[6].1), Ok(()));
    lent.put("tally", 0, &tally);
    assert_eq!(lent.call("frequency", &stored[1].1), Ok(()));
    assert_eq!(reply_with(&lent, &now, "unit", &records[6].1), REFUSED_11);
}

type Met = BTreeMap<String, BTreeSet<u8>>;

fn script_and_met(calls: usize, seed: u64) -> (String, Met) {
    let mut out = Vec::new();
    let mut script = Script::new(seed, true, &mut out);
    script.write(calls);
    let met = std::mem::take(&mut script.met);
    (String::from_utf8(out).expect("a script is text"), met)
}

fn script(calls: usize, seed: u64) -> String {
    script_and_met(calls, seed).0
}

/// What was met in this situation is this reply, and no other.
fn assert_met(met: &Met, situation: &str, reply: u8) {
    let replies = met.get(situation).unwrap_or_else(|| panic!("{situation}: never met"));
    assert_eq!(*replies, BTreeSet::from([reply]), "{situation}");
}

#[test]
fn every_length_is_tried_on_both_sides() {
    for seed in 0..20 {
        let met = script_and_met(0, seed).1;
        for kind in ["frequency", "unit", "answer", "member"] {
            for name in lists_of(kind) {
                assert_met(&met, &format!("{kind}: {name} one short"), 12);
                assert_met(&met, &format!("{kind}: {name} exact"), 0);
                assert_met(&met, &format!("{kind}: {name} one longer"), 0);
                assert_met(&met, &format!("{kind}: {name} short and a number off"), 12);
                if kind != "member" {
                    assert_met(&met, &format!("{kind}: {name} short and no bytes"), 12);
                }
            }
        }
    }
}

#[test]
fn every_interval_number_is_tried() {
    let wrong = [
        "0",
        "the last",
        "one less",
        "one more",
        "-1",
        "negative",
        "over 32 bits",
        "under 0 by 32 bits",
        "the lowest of 64 bits",
        "the highest of 64 bits",
    ];
    for seed in 0..20 {
        let met = script_and_met(0, seed).1;
        for kind in ["unit", "answer", "member"] {
            for region in 0..REGIONS {
                for what in wrong {
                    assert_met(&met, &format!("{kind}: interval number {what} in region {region}"), 11);
                }
                let cut = format!("{kind}: interval number wrong in region {region}, part cut");
                if kind != "member" {
                    assert_met(&met, &cut, 11);
                }
            }
            for what in ["0", "the last", "one more"] {
                assert_met(&met, &format!("{kind}: interval number {what} in the tally and all regions"), 0);
                assert_met(&met, &format!("{kind}: interval number {what} in the tally alone"), 11);
                assert_met(&met, &format!("{kind}: interval number {what} in all regions"), 11);
            }
            assert_met(&met, &format!("{kind}: interval number past 32 bits in all regions"), 11);
        }
        assert_met(&met, "frequency: interval number of any size", 0);
        assert_met(&met, "unit: an interval number off, no such region", 11);
    }
}

#[test]
fn every_limit_of_a_lent_number_is_tried_on_both_sides() {
    let limited = [
        ("unit", vec!["a measure", "a sum above", "a sum below"]),
        (
            "answer",
            vec![
                "a measure",
                "a sum above",
                "a sum below",
                "a generation",
                "raise reliable",
                "lower reliable",
                "a residual's default",
                "a home",
                "a performance",
                "a default",
            ],
        ),
        ("member", vec!["its home", "its reliability"]),
    ];
    let unread = [
        ("frequency", vec!["a measure", "a sum"]),
        ("unit", vec!["a measure elsewhere", "a sum elsewhere", "a figure", "numbers", "homes", "rows"]),
        ("unit", vec!["groups", "deviations"]),
        ("answer", vec!["a home past the last unit", "a row past the last unit"]),
        ("member", vec!["another home", "reliability the other way", "reliability elsewhere"]),
        ("member", vec!["another figure", "a number"]),
    ];
    for seed in 0..20 {
        let met = script_and_met(0, seed).1;
        for (kind, all) in &limited {
            for what in all {
                assert_met(&met, &format!("{kind}: {what} at a limit"), 0);
                assert_met(&met, &format!("{kind}: {what} past a limit"), 11);
            }
        }
        for (kind, all) in &unread {
            for what in all {
                assert_met(&met, &format!("{kind}: {what} of any size"), 0);
            }
        }
        for kind in ["unit", "answer"] {
            for what in
                ["the highest kept", "the lowest dropped", "a dropped 0", "a dropped 1", "a dropped -1"]
            {
                assert_met(&met, &format!("{kind}: a measure, {what}"), 0);
            }
        }
        assert_met(&met, "unit: a measure off, two bytes", 1);
        assert_met(&met, "unit: a measure off, three bytes", 11);
        assert_met(&met, "unit: a measure off, no such region", 81);
        assert_met(&met, "answer: a measure off, no bytes", 11);
    }
}

/// The script of the gate hands in stored tallies at every stage of the next book.
#[test]
fn stored_tallies_are_tried_at_every_stage() {
    let met = script_and_met(10_000, 2026).1;
    let untold = ["the contents", "the settings"];
    let told = [
        "the first frequency record",
        "some frequency records",
        "the last frequency record",
        "some units",
        "the last unit",
        "a requirement",
    ];
    for kind in ["unit", "units", "answer", "member"] {
        for stage in told {
            assert_met(&met, &format!("stored {kind}, after {stage} of another number"), 11);
        }
        for stage in untold {
            let situation = format!("stored {kind}, after {stage} of another number");
            assert!(met[&situation].contains(&0), "{situation}");
        }
        for stage in untold.into_iter().chain(told) {
            let situation = format!("stored {kind}, after {stage} of the same number");
            assert!(met.get(&situation).is_some_and(|replies| replies.contains(&0)), "{situation}");
        }
    }
}

#[test]
fn a_refusal_changes_nothing_and_each_is_reached() {
    let mut caller = Caller::default();
    let mut reached = BTreeSet::new();
    for line in script(10_000, 2026).lines() {
        let before = caller.lent.clone();
        let Some(answer) = caller.line(line) else {
            continue;
        };
        let mut words = answer.split(' ').map(str::to_string);
        let (kind, reply) = (words.next().expect("a kind"), words.next().expect("a reply"));
        let same = before == caller.lent;
        if reply == "0" {
            // A record that is taken always counts.
            let may_stay =
                ["answer", "contents", "member"].contains(&kind.as_str()) || line == "call units -";
            assert!(!same || may_stay, "{line}");
        } else {
            // Of a run that is refused the records before the refused one stay added.
            let added = kind == "units" && !["0", "1"].contains(&words.next().expect("a place").as_str());
            assert!(same != added, "{line}");
        }
        reached.insert(format!("{kind} {reply}"));
    }
    let expected = [
        ("contents", vec![0, 1, 2, 3, 5]),
        ("settings", vec![0, 1, 6, 11, 12]),
        ("frequency", vec![0, 1, 71, 72, 73, 74, 11, 12]),
        ("unit", vec![0, 1, 81, 82, 83, 84, 9, 16, 11, 12]),
        ("units", vec![0, 1, 81, 82, 83, 84, 9, 16, 11, 12]),
        ("requirement", vec![0, 1, 4, 10, 11, 12]),
        ("answer", vec![0, 1, 10, 11, 12]),
        ("member", vec![0, 11, 12]),
    ];
    for (kind, replies) in expected {
        for reply in replies {
            assert!(reached.contains(&format!("{kind} {reply}")), "{kind} {reply} is never reached");
        }
    }
}

/// A call's kind and reply out of its line: number, place and t, of `answer` and `member` the number alone.
fn kind_and_reply(answer: &str) -> (String, Refusal) {
    let words: Vec<&str> = answer.split(' ').collect();
    let number = |place: usize| words[place].parse::<usize>().expect("a number");
    let of_a_book = !["answer", "member"].contains(&words[0]);
    let (place, t) = if of_a_book { (number(2), number(3)) } else { (0, 0) };
    assert_eq!(words[if of_a_book { 4 } else { 2 }], "tally", "{answer}");
    (words[0].to_string(), Refusal { number: number(1) as u8, place, t })
}

fn replies(script: &str) -> BTreeSet<(String, Refusal)> {
    let mut caller = Caller::default();
    script.lines().filter_map(|line| caller.line(line)).map(|answer| kind_and_reply(&answer)).collect()
}

/// Each script has each fault of a frequency record and of a unit at five places, and each t twice.
#[test]
fn every_script_has_every_t_and_every_place() {
    for seed in 0..10 {
        let met = replies(&script(0, seed));
        for (kind, number) in [("frequency", 74), ("unit", 84)] {
            let of = |(of, reply): &&(String, Refusal)| of == kind && reply.number == number;
            let ts: BTreeSet<usize> = met.iter().filter(of).map(|(_, reply)| reply.t).collect();
            assert_eq!(ts, (1..=POINTS).collect(), "{kind}, seed {seed}");
        }
        for place in 1..=5 {
            let has = |kind: &str, number: u8| {
                met.iter().any(|(of, reply)| of == kind && reply.number == number && reply.place == place)
            };
            assert!(
                has("frequency", 1) && has("frequency", 71) && has("frequency", 74),
                "{place}, seed {seed}"
            );
            assert!(has("unit", 1) && has("unit", 81) && has("unit", 84), "{place}, seed {seed}");
            assert!(has("unit", 9) || place == 1, "{place}, seed {seed}");
        }
    }
}

/// In random calls, too, every refusal of a field comes at places other than 1, and with many t; 11 has none.
#[test]
fn random_calls_are_refused_at_many_places() {
    let limits = replies(&script(0, 2026)).len();
    let met = replies(&script(10_000, 2026));
    assert!(met.len() > limits + 120, "{limits} of {}", met.len());
    let of = |kind: &str, number: u8| -> Vec<Refusal> {
        let wanted = met.iter().filter(|(of, reply)| of == kind && reply.number == number);
        wanted.map(|(_, reply)| *reply).collect()
    };
    for (kind, numbers) in [
        ("frequency", vec![1, 71, 72, 73, 74, 12]),
        ("unit", vec![1, 81, 82, 83, 84, 9, 12]),
        ("requirement", vec![1, 10]),
    ] {
        for number in numbers {
            for place in 2..=5 {
                assert!(
                    of(kind, number).iter().any(|reply| reply.place == place),
                    "{kind} {number} at {place}"
                );
            }
        }
    }
    assert!(of("unit", 84).iter().any(|reply| reply.place > 9));
    assert!(of("requirement", 4).iter().any(|reply| reply.place > 1));
    assert!(of("settings", 6).iter().chain(&of("settings", 1)).all(|reply| reply.place == 1));
    let nowhere = |reply: &Refusal| reply.place == 0 && reply.t == 0;
    assert!(met
        .iter()
        .filter(|(kind, reply)| kind != "units" && [0, 2, 3, 5, 11].contains(&reply.number))
        .all(|(_, reply)| nowhere(reply)));
    assert!(met.iter().filter(|(kind, _)| kind == "contents").all(|(_, reply)| nowhere(reply)));
    assert!(met.iter().all(|(_, reply)| (reply.t > 0) == [74, 84].contains(&reply.number)));
    // A tally of fewer than eight words says of no record that it is to come.
    for kind in ["settings", "frequency", "unit", "requirement"] {
        assert!(of(kind, 12).iter().any(nowhere), "{kind}");
    }
    assert!(of("settings", 12).iter().chain(&of("requirement", 12)).all(nowhere));
}

/// In random calls, too, units and answers meet measures of dropped points, of chains and of no chain.
#[test]
fn scripts_have_dropped_points() {
    let mut caller = Caller::default();
    let mut met: BTreeMap<String, usize> = BTreeMap::new();
    for line in script(10_000, 2026).lines() {
        let measures = caller.lent.list("measures").numbers.clone();
        let Some(answer) = caller.line(line) else {
            continue;
        };
        let reply: Vec<&str> = answer.split(' ').take(2).collect();
        let dropped = measures.iter().any(|&number| says_dropped(number) && number <= LENT_MEASURE_HIGHEST);
        if dropped {
            *met.entry(reply.join(" ")).or_default() += 1;
        }
    }
    let often =
        [("frequency 0", 500), ("unit 0", 300), ("units 0", 200), ("answer 0", 500), ("member 0", 100)];
    for (kind, least) in often {
        assert!(met.get(kind).is_some_and(|&calls| calls >= least), "{kind}: {met:?}");
    }
}

#[test]
fn a_script_is_named_by_its_seed() {
    assert_eq!(script(500, 9), script(500, 9));
    assert_ne!(script(500, 9), script(500, 10));
}

/// A unit that joins a group: every lent number of the group on both sides of its limit, and every fault, by single calls and by runs.
#[test]
fn every_limit_of_a_group_is_tried_on_both_sides() {
    for seed in 0..20 {
        let met = script_and_met(0, seed).1;
        for kind in ["unit", "units"] {
            let is = |what: &str, reply: u8| assert_met(&met, &format!("{kind}: {what}"), reply);
            is("joining, the home before is its own", 0);
            is("joining, the home before is another region's", 16);
            is("joining, the home before is none", 11);
            for what in ["a performance before", "a default before", "a deviation"] {
                is(&format!("joining, {what} at a limit"), 0);
                is(&format!("joining, {what} past a limit"), 11);
            }
            let unread =
                ["a number before", "a home further before", "a row further before", "the first group"];
            for what in unread.into_iter().chain(["its own home", "its own group"]) {
                is(&format!("joining, {what} of any size"), 0);
            }
            let wrong = [
                ("no such region", 81),
                ("a start out of range", 81),
                ("a default above 0", 82),
                ("a spare bit", 83),
                ("a reading out of range", 84),
                ("a number that does not rise", 9),
                ("another region", 16),
                ("a default", 16),
            ];
            for (what, number) in wrong {
                is(&format!("joining with {what}"), number);
            }
            is("joining wrongly, a number off", 11);
            is("a new group behind a group", 0);
            is("no group behind a group", 0);
            is("a group that was left behind a group", 16);
            is("a new group, others were left", 0);
            is("no group, others were left", 0);
            is("a group that was left, others were too", 16);
        }
        assert_met(&met, "unit: joining, a number off, 71 bytes", 1);
        assert_met(&met, "unit: joining, a number off, 72 bytes", 11);
        assert_met(&met, "unit: joining, 72 bytes", 1);
        assert_met(&met, "answer: a performance of a group at a limit", 0);
        assert_met(&met, "answer: a performance of a group past a limit", 11);
        assert_met(&met, "answer: a default of a group at a limit", 0);
        assert_met(&met, "answer: a default of a group past a limit", 11);
        assert_met(&met, "member: a row of a group", 0);
    }
}

/// What each unit of a group leaves, worked by hand: a generator 7,500 above, a load 2,250 below, one with a bad reading, and an ungrouped
/// unit after them.
#[test]
fn what_a_group_leaves() {
    let mut book = second::worked::listing_book();
    book.units[1].defaults = [0; 6];
    book.units.push(Unit { number: 5, ..second::write::base_unit(0, 0) });
    book.units[2].readings = [10; POINTS];
    (book.units[2].good[74], book.units[2].readings[74]) = (false, 0);
    book.units.iter_mut().for_each(|unit| unit.group = 9);
    book.units.push(Unit { readings: [-4; POINTS], ..second::write::base_unit(7, 0) });
    let mut lent = lent_for(4);
    lent.call("contents", &to_bytes(&book)).unwrap();
    let records = records_of(&book);
    for (kind, bytes) in &records[..6] {
        assert_eq!(lent.call(kind, bytes), Ok(()));
    }
    let list = |lent: &Lent, name: &str, from: usize, count: usize| {
        lent.list(name).numbers[from..from + count].to_vec()
    };
    let defaults = [0, 0, -1_000, 0, 0, 0];
    let row = |raise: i128| [&[raise, 0][..], &defaults].concat();
    // Sums above and below, summed deviations, homes, numbers, groups after each unit.
    let worth = 20_000 * 75;
    let after = [
        ([7_500, 0], [7_500, 7_500], [1, 77, 77, 77], [1, 77, 77, 77], [9, 77, 77, 77], 7_500 * worth),
        ([5_250, 0], [5_250, 5_250], [10, 1, 77, 77], [1, 1, 77, 77], [9, 9, 77, 77], 5_250 * worth),
        (
            [0, 0],
            [6_000, 5_250],
            [10, 10, 0, 77],
            [1, 1, 1, 77],
            [9, 9, 9, 77],
            5_250 * worth + 20_000 * 74 * 750,
        ),
    ];
    for (place, (sums, deviations, homes, numbers, groups, raise)) in after.into_iter().enumerate() {
        // A record that is refused leaves all of it.
        let before = lent.clone();
        // Another region is the primary's own choice.
        let wrong = [(12, 1, 82), (69, 0x0F, 83), (2, 1, 16)];
        for (at, value, number) in wrong.into_iter().filter(|&(at, ..)| place > 0 || at != 2) {
            let mut record = records[6 + place].1.clone();
            record[at] = value;
            let refusal = lent.call("unit", &record);
            assert_eq!(refusal, Err(Refusal { number, place: place + 1, t: 0 }));
            assert_eq!(lent, before);
        }
        assert_eq!(lent.call("unit", &records[6 + place].1), Ok(()));
        assert_eq!(list(&lent, "sums", 0, 75), [sums[0]; 75], "{place}");
        assert_eq!(list(&lent, "sums", 75, 75), [sums[1]; 75], "{place}");
        assert_eq!(list(&lent, "deviations", 0, 74), [deviations[0]; 74], "{place}");
        assert_eq!(list(&lent, "deviations", 74, 2), [deviations[1], 77], "{place}");
        assert_eq!(list(&lent, "homes", 0, 4), homes, "{place}");
        assert_eq!(list(&lent, "numbers", 0, 4), numbers, "{place}");
        assert_eq!(list(&lent, "groups", 0, 4), groups, "{place}");
        assert_eq!(list(&lent, "rows", 8 * place, 8), row(raise), "{place}");
        assert_eq!(list(&lent, "rows", 8 * place + 8, 1), [77], "{place}");
    }
    let group = list(&lent, "deviations", 0, 75);
    assert_eq!(lent.call("unit", &records[9].1), Ok(()));
    assert_eq!(list(&lent, "deviations", 0, 75), group, "an ungrouped unit leaves them");
    assert_eq!(list(&lent, "homes", 0, 5), [10, 10, 0, 1, 77]);
    assert_eq!(list(&lent, "numbers", 0, 5), [1, 1, 1, 7, 77]);
    assert_eq!(list(&lent, "groups", 0, 5), [9, 9, 9, 0, 77]);
    assert_eq!([list(&lent, "sums", 0, 75), list(&lent, "sums", 75, 75)], [[0; 75], [-300; 75]]);
    // Rows 0 and 1 are passed over, row 2 is the bad group, row 3 the ungrouped unit.
    for (row, words) in [(0, [0, 0, 0]), (1, [0, 0, 0]), (2, [1, 1, 2]), (3, [1, 7, 0])] {
        assert_eq!(lent.call("member", &[row, 0, 1].map(u32::to_le_bytes).concat()), Ok(()));
        assert_eq!(list(&lent, "member", 0, 4), [&words[..], &[77]].concat(), "{row}");
    }
    assert_eq!(lent.call("answer", &records[10].1), Ok(()));
    // Two members and the residual; one bad of two is over 20 percent.
    assert_eq!(list(&lent, "reply", 0, 2), [3, 0]);
    assert_eq!(list(&lent, "performances", 0, 4), [0, -300 * worth, 300 * worth, 77]);
}
