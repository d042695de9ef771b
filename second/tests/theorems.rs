//! The theorems on worked books say what the second program says, of the same bytes: their figures are read
//! from the files in which they stand, and held to the books and listings of tests/worked.

mod common;

use std::fs;
use std::path::{Path, PathBuf};

use common::{printed, refused};
use second::book::{Book, Refusal, Requirement, Unit, CONTENTS_SIZE};
use second::cents::{payment_pool, settle_book};
use second::deviation::unit_deviations;
use second::performance::{performance_over_all, region_views};
use second::quantities::{Direction, FACTOR_ONE, POINTS, POWER_LIMIT};
use second::roster::grouped;
use second::rules::totals_and_weights;
use second::share::{share, share_earlier_first};
use second::sweep::put;
use second::worked;
use second::write::{base_book, base_requirement, base_unit, to_bytes};
use second::writer::{self, Given, Lent};

fn top() -> PathBuf {
    Path::new(env!("CARGO_MANIFEST_DIR")).join("..")
}

fn theorems(krate: &str, module: &str) -> String {
    let path = top().join(format!("crates/{krate}/specs/{module}.antt"));
    fs::read_to_string(&path).unwrap_or_else(|error| panic!("{}: {error}", path.display()))
}

/// The modules of a crate, as its root names them.
fn modules(krate: &str) -> Vec<String> {
    theorems(krate, "Lib")
        .lines()
        .filter_map(|line| line.strip_prefix("pub mod "))
        .map(str::to_string)
        .collect()
}

/// The book of a theorem's name, and its listing.
fn kept(name: &str, ending: &str) -> Vec<u8> {
    let path = top().join(format!("tests/worked/{}.{ending}", name.replace('-', "_")));
    fs::read(&path).unwrap_or_else(|error| panic!("{}: {error}", path.display()))
}

/// The text without comments, as words; brackets are words of their own.
fn words(text: &str) -> Vec<String> {
    let code: Vec<&str> = text.lines().map(|line| line.split("--").next().unwrap_or("")).collect();
    let spaced = code.join(" ").replace('(', " ( ").replace(')', " ) ");
    spaced.split_whitespace().map(str::to_string).collect()
}

fn number(word: &str) -> i128 {
    let plain = word.replace('_', "");
    match plain.strip_prefix("0x") {
        Some(digits) => i128::from_str_radix(digits, 16),
        None => plain.parse(),
    }
    .unwrap_or_else(|_| panic!("no number: {word}"))
}

/// Each declaration `pub NAME : ...` that has a part before it, up to the next blank line.
fn declarations(text: &str) -> Vec<(String, String)> {
    text.split("\n\n")
        .filter_map(|block| {
            let at = block.find("pub ").filter(|&at| at == 0 || block[..at].ends_with('\n'))?;
            let (name, rest) = block[at + 4..].split_once(" :")?;
            Some((name.to_string(), rest.to_string()))
        })
        .collect()
}

/// The quoted texts of a declaration, one after the other.
fn quoted(text: &str) -> String {
    text.split("text \"")
        .skip(1)
        .map(|part| part.split("\\n\"").next().unwrap_or("").to_string() + "\n")
        .collect()
}

/// What the abbreviations of a type stand for, each up to the next blank line.
fn abbreviations(text: &str, of: &str) -> Vec<(String, String)> {
    text.split("\n\n")
        .filter_map(|block| {
            let (_, rest) = block.split_once("abbrev ")?;
            let (name, rest) = rest.split_once(&format!(" : {of}\n"))?;
            let name = name.trim_start_matches("pub ");
            Some((name.to_string(), rest.strip_prefix(&format!("{name} ="))?.to_string()))
        })
        .collect()
}

/// A text with what its abbreviations stand for in their places.
fn in_full(statement: &str, abbreviations: &[(String, String)]) -> String {
    let word = |part: &str| part.trim_matches(['(', ')']).to_string();
    let lines =
        |part: &str| abbreviations.iter().find(|(name, _)| *name == word(part)).map(|(_, is)| is.as_str());
    statement.split(' ').map(|part| lines(part.trim()).unwrap_or(part)).collect::<Vec<_>>().join(" ")
}

/// The book that a theorem of this name speaks of, as it is written there.
fn term_of(name: &str) -> &str {
    match name {
        "listing" => "( paper_book 7 )",
        "ungrouped" => "( ungrouped groups )",
        _ => name,
    }
}

/// The listing, and that the statement is of the book.
fn listing_of(name: &str, statement: &str) -> String {
    let settled = format!("settle ( book_bytes {} ) ≡ ", term_of(name));
    assert!(words(statement).join(" ").starts_with(&settled), "{name}");
    String::from_utf8(kept(name, "listing")).unwrap()
}

/// The lines of each requirement of a listing.
fn by_requirement(listing: &str) -> Vec<String> {
    listing.split("requirement ").skip(1).map(|lines| format!("requirement {lines}")).collect()
}

/// The theorems `lines 2 ≡ two-regions-lines` of a module, each the place of a requirement and its lines.
fn lines_of_requirements(text: &str, abbreviations: &[(String, String)]) -> Vec<(usize, String)> {
    let of = |(_, statement): (String, String)| {
        let (place, lines) = statement.strip_prefix(" lines ")?.split_once(" ≡ ")?;
        let lines = lines.lines().next().expect("its lines");
        Some((number(place) as usize, quoted(&in_full(lines, abbreviations))))
    };
    declarations(text).into_iter().filter_map(of).collect()
}

#[test]
fn listings_are_those_of_the_second_program() {
    let mut seen = vec!["listing".to_string(), "groups_of_one".to_string()];
    for module in modules("worked") {
        let text = theorems("worked", &module);
        let abbreviations = abbreviations(&text, "List ℕ");
        let mut lines = String::new();
        for (name, statement) in declarations(&text) {
            let Some(book) = name.strip_suffix("_listing") else {
                lines += &quoted(&statement);
                continue;
            };
            let listing = listing_of(book, &statement);
            let says = statement.split("\nunfolding").next().expect("a statement");
            assert_eq!(quoted(&in_full(says, &abbreviations)), listing, "{name}");
            assert!(lines.is_empty() || listing.ends_with(&("\n".to_string() + &lines)), "{name}");
            seen.push(book.replace('-', "_"));
        }
    }
    let mut names = stated();
    names.sort_unstable();
    seen.sort_unstable();
    assert_eq!(seen, names);
}

#[test]
fn lines_of_requirements_are_those_of_the_second_program() {
    for (module, book) in
        [("GroupListing", "groups"), ("UngroupedListing", "ungrouped"), ("BadGroups", "bad_groups")]
    {
        let text = theorems("worked", module);
        let listing = String::from_utf8(kept(book, "listing")).unwrap();
        let wanted: Vec<(usize, String)> = by_requirement(&listing).into_iter().enumerate().collect();
        assert_eq!(lines_of_requirements(&text, &abbreviations(&text, "List ℕ")), wanted, "{module}");
        let term = term_of(book);
        let field = if term.ends_with(')') { " .requirements" } else { ".requirements" };
        let lines = format!("answer_lines ( answer {term} ( get_or {term}{field} i requirement ) )");
        assert!(words(&text).join(" ").contains(&format!("lines i = {lines}")), "{module}");
    }
}

/// The paper's listing, of its own book and of the one whose units are groups of one.
#[test]
fn listings_of_the_paper_are_those_of_the_second_program() {
    let paper = abbreviations(&theorems("paper", "PaperListing"), "List ℕ");
    let listing = "text \"interval 7\\n\" ++ paper_lines";
    let lines = quoted(&in_full(listing, &paper));
    let of = |module: &str| words(&theorems("paper", module)).join(" ");
    for (module, name) in [("PaperListing", "listing"), ("GroupsOfOne", "groups_of_one")] {
        let stated = format!("pub in_full : settle ( book_bytes {} ) ≡ {listing} ", term_of(name));
        assert!(of(module).contains(&stated), "{module}");
        assert_eq!(lines.as_bytes(), kept(name, "listing"), "{module}");
    }
    let same = "as_without : settle ( book_bytes groups_of_one ) ≡ settle ( book_bytes ( paper_book 7 ) ) ";
    assert!(of("GroupsOfOne").contains(same));
}

/// The worked books whose listing is a theorem: all but those on which `settle` alone is run, and the guide's table 15, of which the
/// theorems say the performances.
fn stated() -> Vec<&'static str> {
    const RUN_ALONE: [&str; 5] =
        ["byte_behind", "number_not_rising", "readings_out_of_range", "table_15", "thirteen_units"];
    let is_run_alone = |name: &&str| RUN_ALONE.contains(name) || OF_GROUPS.contains(name);
    worked::all().iter().map(|worked| worked.name).filter(|name| !is_run_alone(name)).collect()
}

/// The worked books of groups (request R-5) that are run and compared, without a theorem.
const OF_GROUPS: [&str; 5] =
    ["groups_beside", "groups_bad", "group_returns", "group_in_two_regions", "group_with_a_default"];

/// The number that the bytes hold, the lowest first, modulo 2^61 - 1.
fn sum_of(bytes: &[u8]) -> i128 {
    bytes.iter().rev().fold(0, |sum, &byte| (256 * sum + i128::from(byte)) % ((1 << 61) - 1))
}

#[test]
fn bytes_are_those_that_the_second_program_is_given() {
    let mut seen = 0;
    for (name, statement) in declarations(&theorems("worked", "BookBytes")) {
        let Some(book) = name.strip_suffix("_bytes") else { continue };
        let all = words(&statement);
        let says = all.iter().position(|word| word == "unfolding").expect("a theorem by computing");
        let bytes = kept(book, "book");
        assert_eq!(all[..says - 2].join(" "), format!("Written {}", term_of(book)));
        assert_eq!(number(&all[says - 2]), bytes.len() as i128, "{name}");
        assert_eq!(number(&all[says - 1]), sum_of(&bytes), "{name}");
        seen += 1;
    }
    assert_eq!(seen, stated().len() + OF_TABLE_15);
}

/// The guide's table 15 has its bytes and performances told, and no listing.
const OF_TABLE_15: usize = 1;

fn worked_book(name: &str) -> Book {
    let worked = worked::all().into_iter().find(|worked| worked.name == name);
    worked.unwrap_or_else(|| panic!("no worked book {name}")).book
}

/// The numbers of a list such as `pos 3 ∷ neg_ℤ (pos 4) ∷ []`, or of a plain one, at the end of a statement.
fn list_at_the_end(statement: &str) -> Vec<i128> {
    let list = statement.rsplit("≡").next().expect("an equation").split("[]").next().expect("a list");
    let of = |part: &str| match part.trim().strip_prefix("neg_ℤ (pos ") {
        Some(digits) => -number(digits.trim_end_matches(')')),
        None => number(part.trim().trim_start_matches("pos ")),
    };
    list.split('∷').filter(|part| !part.trim().is_empty()).map(of).collect()
}

#[test]
fn dropped_points_are_those_of_the_second_program() {
    let text = theorems("books", "DroppedPoints");
    let mut seen = 0;
    for part in text.split("dropped_of ").skip(2).filter(|part| part.contains(" ≡ ")) {
        let (term, list) = part.split_once(" ≡ ").expect("an equation");
        let (name, region) = term.split_once(' ').expect("a book and a region");
        if name == "b" {
            continue;
        }
        let view =
            &region_views(&worked_book(&name.replace('-', "_")))[region.parse::<usize>().expect("a region")];
        let dropped: Vec<i128> =
            (1..).zip(view.dropped).filter(|(_, dropped)| *dropped).map(|(t, _)| t).collect();
        assert_eq!(
            list_at_the_end(&format!("≡ {}", list.split("[]").next().expect("a list"))),
            dropped,
            "{term}"
        );
        seen += 1;
    }
    assert_eq!(seen, 4);
}

#[test]
fn performances_of_table_15_are_those_of_the_second_program() {
    let book = worked_book("table_15");
    let view = &region_views(&book)[3];
    let mut series: Vec<_> = book.units.iter().map(unit_deviations).collect();
    series.push(view.residual_deviations);
    let mut seen = 0;
    for (name, statement) in declarations(&theorems("worked", "TableFifteen")) {
        let direction = if name.starts_with("raise") { Direction::Raise } else { Direction::Lower };
        let told = |deviations: &_| match name.ends_with("kept") {
            true => view.performance(direction, deviations),
            false => performance_over_all(direction, &view.measures, deviations),
        };
        let told: Vec<i128> = series.iter().map(told).collect();
        assert_eq!(
            list_at_the_end(statement.split("unfolding").next().expect("a statement")),
            told,
            "{name}"
        );
        seen += 1;
    }
    assert_eq!(seen, 4);
}

/// A change of a table: the place, the width and the value of a field.
type Change = (usize, usize, i128);

/// The changes up to the end of their list, as `with 56 2 0 ∷ below 76 4 5_000_001 ∷ []`, or to a list that has a name.
fn changes(mut words: &[String], named: &[(String, Vec<Change>)]) -> Vec<Change> {
    let mut all = Vec::new();
    loop {
        match words {
            [open, rest @ ..] if open == "(" || open == "∷" => words = rest,
            [end, ..] if end == "[]" => return all,
            [end, ..] if named.iter().any(|(name, _)| name == end) => {
                all.extend(named.iter().filter(|(name, _)| name == end).flat_map(|(_, list)| list));
                return all;
            }
            [kind, place, width, value, rest @ ..] => {
                let sign = if kind == "below" { -1 } else { 1 };
                assert!(kind == "with" || kind == "below", "{kind}");
                all.push((number(place) as usize, number(width) as usize, sign * number(value)));
                words = rest;
            }
            _ => panic!("a list that does not end"),
        }
    }
}

/// The lists of changes that have a name, each by those before it.
fn named_changes(text: &str) -> Vec<(String, Vec<Change>)> {
    let mut named = Vec::new();
    for (name, list) in abbreviations(text, "List Change") {
        let list = changes(&words(&list), &named);
        named.push((name, list));
    }
    named
}

/// The first of a list is made last.
fn changed(size: usize, changes: &[Change]) -> Vec<u8> {
    let mut bytes = kept("every_field", "book");
    bytes.truncate(size);
    for &(place, width, value) in changes.iter().rev() {
        match value {
            0 => bytes[place..place + width].fill(0),
            _ => put(&mut bytes, place, width, value),
        }
    }
    bytes
}

/// The declarations of a module, and the fields of its records.
fn declarations_and_fields(text: &str) -> Vec<(String, String)> {
    let fields = |(_, statement): &(String, String)| -> Vec<(String, String)> {
        let fields = statement.split("\n  pub ").skip(1).filter_map(|field| field.split_once(" :"));
        fields.map(|(name, rest)| (name.to_string(), rest.to_string())).collect()
    };
    let mut all = declarations(text);
    all.extend(all.iter().flat_map(fields).collect::<Vec<_>>());
    all
}

/// Number, place and t of the refusal, all 0 where the book is taken.
type Told = [i128; 3];

fn told(bytes: &[u8]) -> Told {
    refused(bytes)
        .map_or([0; 3], |refusal| [i128::from(refusal.number), refusal.place as i128, refusal.t as i128])
}

/// The words `no 84 2 75`, perhaps in brackets, and the words behind them.
fn no(all: &[String]) -> (Told, &[String]) {
    match all {
        [open, rest @ ..] if open == "(" => {
            let (told, rest) = no(rest);
            assert_eq!(rest[0], ")");
            (told, &rest[1..])
        }
        [word, number_told, place, t, rest @ ..] if word == "no" => {
            ([number(number_told), number(place), number(t)], rest)
        }
        _ => panic!("no refusal: {:?}", all.first()),
    }
}

/// A list of refusals: `( no 71 4 0 ∷ [] )`, or `( map ( no 74 1 ) ( 1 ∷ 75 ∷ [] ) )`, which gives the t of each.
fn refusals(all: &[String]) -> Vec<Told> {
    if let [_, map, _, word, number_told, place, _, ts @ ..] = all {
        if map == "map" && word == "no" {
            return list(ts).0.into_iter().map(|t| [number(number_told), number(place), t]).collect();
        }
    }
    let (mut told, mut rest) = (Vec::new(), &all[1..]);
    while rest[0] != "[]" {
        let (one, behind) = no(rest);
        told.push(one);
        rest = &behind[1..];
    }
    told
}

#[test]
fn tables_of_changes_are_refused_so() {
    let (mut alone, mut together) = (0, 0);
    for module in modules("refused") {
        let text = theorems("refused", &module);
        let named = named_changes(&text);
        for (name, statement) in declarations_and_fields(&text) {
            let all = words(&statement);
            let [kind, _start, size, rest @ ..] = &all[..] else { continue };
            if !["Alone", "Each", "Together"].contains(&kind.as_str()) {
                continue;
            }
            let size = number(size) as usize;
            let (list, expected) = match kind.as_str() {
                "Together" => {
                    let (expected, list) = no(rest);
                    assert_eq!(told(&changed(size, &changes(list, &named))), expected, "{module} {name}");
                    together += 1;
                    continue;
                }
                "Alone" => {
                    let (expected, list) = no(rest);
                    let list = changes(list, &named);
                    let same = vec![expected; list.len()];
                    (list, same)
                }
                _ => {
                    let end = rest.iter().position(|word| word == "[]").expect("the end of the changes");
                    (changes(rest, &named), refusals(&rest[end + 2..]))
                }
            };
            assert_eq!(list.len(), expected.len(), "{module} {name}");
            for (change, expected) in list.into_iter().zip(expected) {
                assert_eq!(told(&changed(size, &[change])), expected, "{module} {name} {change:?}");
                alone += 1;
            }
        }
    }
    assert!(alone > 160 && together > 45, "{alone} alone, {together} together");
}

#[test]
fn books_that_end_early_or_late_are_refused_so() {
    let text = theorems("refused", "Places");
    let all: Vec<_> = declarations(&text);
    let statement = |name: &str| words(&all.iter().find(|(found, _)| found == name).expect("a theorem").1);
    let early = statement("ends_early");
    let at = early.iter().position(|word| word == "base").expect("the book");
    let (sizes, rest) = list(&early[at + 3..]);
    let expected = refusals(&rest[1..]);
    assert_eq!((sizes.len(), expected.len()), (7, 7));
    for (size, expected) in sizes.into_iter().zip(expected) {
        assert_eq!(told(&changed(size as usize, &[])), expected, "{size}");
    }
    let late = statement("bytes_follow");
    let same = late.iter().position(|word| word == "≡").expect("what it is");
    let mut bytes = kept("every_field", "book");
    bytes.push(0);
    assert_eq!(told(&bytes), no(&late[same + 1..]).0);
}

/// The table of contents of a book with so many units and requirements.
fn table(units: usize, requirements: usize) -> Vec<u8> {
    let mut book = base_book();
    book.units = (0..units).map(|place| Unit { number: place as i128, ..base_unit(0, 0) }).collect();
    book.requirements = (0..requirements)
        .map(|place| Requirement { number: place as i128, ..base_requirement(0, 1, Direction::Raise) })
        .collect();
    to_bytes(&book)[..CONTENTS_SIZE].to_vec()
}

#[test]
fn tables_of_contents_are_refused_so() {
    let all = words(&theorems("refused", "TableFields"));
    let mut seen = 0;
    for at in 0..all.len() {
        if let [is, open, word, units, requirements, close, same, expected @ ..] = &all[at..] {
            if [is, open, word, close, same].map(String::as_str) == ["refusal", "(", "table", ")", "≡"] {
                let bytes = table(number(units) as usize, number(requirements) as usize);
                assert_eq!(told(&bytes), no(expected).0, "{units} {requirements}");
                seen += 1;
            }
        }
    }
    assert_eq!(seen, 6);
}

#[test]
fn shares_are_refused_so() {
    let all = words(&theorems("refused", "ShareLimits"));
    let mut seen = 0;
    for at in 0..all.len() {
        let [call, total, open, rest @ ..] = &all[at..] else { continue };
        if call != "share_reply" || open != "(" {
            continue;
        }
        let end = rest.iter().position(|word| word == "[]").expect("the end of the weights");
        let weights: Vec<i128> =
            rest[..end].iter().filter(|word| *word != "∷").map(|word| number(word)).collect();
        let room = number(&rest[end + 2]) as usize;
        let answer = if room < weights.len() { Err(Refusal::of(12)) } else { share(number(total), &weights) };
        let same = rest.iter().position(|word| word == "≡").expect("what it is");
        match (&rest[same + 1], answer) {
            (word, Ok(shared)) if word == "taken" => {
                assert_eq!(number(&rest[same + 2]), shared.unplaced, "{at}")
            }
            (word, Ok(_)) => assert_eq!(number(word), 0, "{at}"),
            (word, Err(refused)) => assert_eq!(number(word), i128::from(refused.number), "{at}"),
        }
        seen += 1;
    }
    assert_eq!(seen, 13);
}

/// The numbers of a list such as `( 1 ∷ 3 ∷ [] )` or `each 60_000_000 ( 4 ∷ 1 ∷ [] )`, and the words behind it.
fn list(all: &[String]) -> (Vec<i128>, &[String]) {
    let (times, start) = if all[0] == "each" { (number(&all[1]), 2) } else { (1, 0) };
    let end = all.iter().position(|word| word == "[]").expect("the end of a list");
    let numbers = all[start..end].iter().filter(|word| *word != "(" && *word != "∷");
    (numbers.map(|word| times * number(word)).collect(), all.get(end + 2..).unwrap_or(&[]))
}

/// The list that a name stands for.
fn list_named(all: &[String], name: &str) -> Vec<i128> {
    let at = all.windows(2).position(|pair| pair[0] == name && pair[1] == "=").expect("what it is");
    list(&all[at + 2..]).0
}

#[test]
fn shares_by_the_rule_before_are_so() {
    let book = worked::all().into_iter().find(|worked| worked.name == "larger_first").expect("the book").book;
    let settled = settle_book(&book).expect("its figures");
    let mut shares = settled.iter().flat_map(totals_and_weights);
    let all = words(&theorems("books", "Ties"));
    for at in 0..all.len() {
        let [kind, total, name, rest @ ..] = &all[at..] else { continue };
        if kind != "Otherwise" || total == "(" {
            continue;
        }
        let total = if total == "billion" { FACTOR_ONE } else { number(total) };
        let weights = list_named(&all, name);
        let (once, rest) = list(rest);
        let (now, _) = list(rest);
        assert_eq!(share_earlier_first(total, &weights).expect("a share").amounts, once, "{name}");
        assert_eq!(share(total, &weights).expect("a share").amounts, now, "{name}");
        assert_ne!(once, now, "{name}");
        assert_eq!(shares.next(), Some((total, weights)), "{name}");
    }
    assert_eq!(shares.next(), None);
}

#[test]
fn pools_over_given_payments_are_so() {
    let all = words(&theorems("books", "WorkedAnswers"));
    let mut seen = 0;
    for at in 0..all.len() {
        let [call, _direction, open, rest @ ..] = &all[at..] else { continue };
        if call != "pool_over" || open != "(" {
            continue;
        }
        let end = rest.iter().position(|word| word == "[]").expect("the end of the payments");
        let payments: Vec<i128> = rest[..end]
            .split(|word| word == "∷")
            .filter(|term| !term.is_empty())
            .map(|term| match term {
                [pos, size] if pos == "pos" => number(size),
                [minus, _, pos, size, _] if minus == "neg_ℤ" && pos == "pos" => -number(size),
                _ => panic!("no payment: {term:?}"),
            })
            .collect();
        assert_eq!(rest[end + 1..end + 3].join(" "), ") ≡");
        assert_eq!(payment_pool(1_200, 7_500, &payments), number(&rest[end + 3]), "{payments:?}");
        seen += 1;
    }
    assert_eq!(seen, 4);
}

#[test]
fn third_numbers_are_refused_so() {
    let all = words(&theorems("refused", "ThirdNumbers"));
    let mut seen = 0;
    for at in 0..all.len() {
        let [body, _count, _place, _least, rest @ ..] = &all[at..] else { continue };
        // The units before, of which there is none.
        let rest = if body == "unit_body" && rest[0] == "[]" { &rest[1..] } else { rest };
        let [_, of, rest @ ..] = rest else { continue };
        if ![("unit_body", "units"), ("requirement_body", "requirements")]
            .contains(&(body.as_str(), of.as_str()))
        {
            continue;
        }
        let end = rest.iter().position(|word| word == "[]").expect("the end of the numbers");
        let numbers = rest[1..end].iter().filter(|word| *word != "∷").map(|word| number(word));
        let mut book = base_book();
        if body == "unit_body" {
            book.units = numbers.map(|number| base_unit(number, 0)).collect();
            book.requirements = vec![base_requirement(1, 1, Direction::Raise)];
        } else {
            book.requirements = numbers.map(|number| base_requirement(number, 1, Direction::Raise)).collect();
        }
        let same = rest.iter().position(|word| word == "≡").expect("what it is");
        assert_eq!(told(&to_bytes(&book)), no(&rest[same + 1..]).0, "{at}");
        seen += 1;
    }
    assert_eq!(seen, 4);
}

/// A unit `of 3 1 5`, by number, region and group, or `with-defaults ( minus 1 2 3 4 5 6 ) 3 1 5`, and the words behind it.
fn unit_of(all: &[String]) -> (Unit, &[String]) {
    let (defaults, rest) = match all {
        [of, rest @ ..] if of == "of" => ([0; 6], rest),
        [with, open, rest @ ..] if with == "with_defaults" && open == "(" => (minus(rest), &rest[8..]),
        _ => panic!("no unit: {:?}", all.first()),
    };
    let [number, region, group] = [0, 1, 2].map(|place| number(&rest[place]));
    (Unit { defaults, group, ..base_unit(number, region as usize) }, &rest[3..])
}

/// Six defaults, each by its size, as `minus 1 2 3 4 5 6`.
fn minus(all: &[String]) -> [i128; 6] {
    assert_eq!(all[0], "minus");
    std::array::from_fn(|place| -number(&all[place + 1]))
}

/// The units of a list such as `of 1 0 5 ∷ of 2 0 6 ∷ [] )`, and the words behind it.
fn units_of(mut all: &[String]) -> (Vec<Unit>, &[String]) {
    let mut units = Vec::new();
    while all[0] != "[]" {
        let (unit, rest) = unit_of(all);
        assert_eq!(rest[0], "∷");
        units.push(unit);
        all = &rest[1..];
    }
    (units, &all[2..])
}

/// The paper's book with other units prints the refusal that is told.
#[test]
fn wrong_groups_are_refused_so() {
    let mut seen = 0;
    for (name, statement) in declarations(&theorems("refused", "WrongGroups")) {
        let all = words(&statement);
        assert_eq!(all[..2].join(" "), "printed (", "{name}");
        let (units, rest) = units_of(&all[2..]);
        assert_eq!(rest[..2].join(" "), "≡ text", "{name}");
        let book = Book { units, ..worked::listing_book() };
        assert_eq!(printed(&book), quoted(&statement), "{name}");
        seen += 1;
    }
    assert_eq!(seen, 6);
}

/// The statement of a theorem on groups of which no worked book is, without its proof.
fn figures(name: &str) -> String {
    let all = declarations(&theorems("books", "GroupFigures"));
    let (_, found) = all.into_iter().find(|(found, _)| found == name).expect("a theorem");
    found.split("\nunfolding").next().expect("a statement").to_string()
}

#[test]
fn a_group_of_512_is_that_of_the_second_program() {
    let readings = [POWER_LIMIT; POINTS];
    let farthest = Unit { group: 7, start: -POWER_LIMIT, end: -POWER_LIMIT, readings, ..base_unit(0, 0) };
    let members = grouped(&[1; 512].map(|_| farthest.clone()));
    let statement = figures("a_group_of_512");
    let (sizes, deviations) = statement.split_once('×').expect("two equations");
    assert_eq!(list_at_the_end(sizes), members.iter().map(|member| member.units as i128).collect::<Vec<_>>());
    assert_eq!(
        list_at_the_end(deviations),
        members.iter().map(|member| member.deviations[74]).collect::<Vec<_>>()
    );
}

#[test]
fn defaults_of_a_group_are_those_of_the_second_program() {
    let all = words(&figures("primary_defaults"));
    let defaults: Vec<_> =
        (0..all.len()).filter(|&at| all[at] == "minus").map(|at| minus(&all[at..])).collect();
    let [first, second, told] = defaults[..] else { panic!("two units and what is told of them") };
    let of = |defaults| Unit { group: 7, load: true, defaults, ..base_unit(0, 0) };
    let members = grouped(&[of(first), of(second)]);
    assert_eq!(members.iter().map(|member| member.defaults).collect::<Vec<_>>(), [told]);
}

/// The bytes of a term such as `with 2276 1 (with 2279 2 paper)` and the words behind it.
fn term(all: &[String]) -> (Vec<u8>, &[String]) {
    let (mut bytes, mut rest) = match all {
        [word, rest @ ..] if word == "paper" => (kept("listing", "book"), rest),
        [word, place, byte, rest @ ..] if word == "with" => {
            let (mut bytes, rest) = term(rest);
            bytes[number(place) as usize] = number(byte) as u8;
            (bytes, rest)
        }
        [open, rest @ ..] if open == "(" => {
            let (bytes, rest) = term(rest);
            assert_eq!(rest[0], ")");
            (bytes, &rest[1..])
        }
        _ => panic!("no term: {:?}", all.first()),
    };
    if let [plus, open, byte, ..] = rest {
        if plus == "++" && open == "(" {
            bytes.push(number(byte) as u8);
            rest = &rest[6..];
        }
    }
    (bytes, rest)
}

#[test]
fn refused_books_are_refused_so() {
    let text = theorems("paper", "RefusedBooks");
    let all = words(text.split("pub record RefusedBooks").nth(1).expect("the record"));
    let mut seen = 0;
    for at in 0..all.len() {
        if all[at..].len() > 3 && all[at] == "told" && all[at + 1] == "(" && all[at + 2] == "book" {
            let (bytes, rest) = term(&all[at + 3..]);
            assert_eq!((rest[0].as_str(), rest[1].as_str()), (")", "≡"), "{}", all[at - 2]);
            assert_eq!(told(&bytes), no(&rest[2..]).0, "{}", all[at - 2]);
            seen += 1;
        }
    }
    assert_eq!(seen, 19);
}

/// What the writer's tables change: the paper's values with a third unit and a second requirement.
fn handed_in() -> Given {
    let mut book = worked::listing_book();
    book.units.push(base_unit(3, 1));
    book.requirements.push(base_requirement(2, 2, Direction::Lower));
    writer::values_of(&book)
}

fn told_by_the_writer(given: &Given) -> Told {
    let told = |refusal: Refusal| [i128::from(refusal.number), refusal.place as i128, refusal.t as i128];
    writer::write(given).err().map_or([0; 3], told)
}

/// A value put among those that are handed in, as `setting 3 ( below 1 )` or `unit 3 1 ( pos 5 )`, and the words behind it.
fn put_in<'a>(given: &mut Given, all: &'a [String]) -> &'a [String] {
    const KINDS: [(&str, usize); 7] = [
        ("region", writer::REGION_ROW),
        ("region_byte", writer::QUALITY_BYTES),
        ("frequency", POINTS),
        ("unit", writer::UNIT_ROW),
        ("unit_byte", writer::QUALITY_BYTES),
        ("reading", POINTS),
        ("requirement", writer::REQUIREMENT_ROW),
    ];
    let value = |sign: &str, size: &str| if sign == "below" { -number(size) } else { number(size) };
    match all {
        [kind, place, _, sign, size, _, rest @ ..] if kind == "setting" => {
            given.settings[number(place) as usize] = value(sign, size);
            rest
        }
        [kind, place, column, _, sign, size, _, rest @ ..] => {
            let list = KINDS.iter().position(|(name, _)| name == kind).expect("a list");
            let first = usize::from(["frequency", "reading"].contains(&kind.as_str()));
            let at = KINDS[list].1 * (number(place) as usize - 1) + number(column) as usize - first;
            given.lists[list].numbers[at] = value(sign, size);
            rest
        }
        _ => panic!("nothing is put: {:?}", all.first()),
    }
}

/// What the values with the puts of a list, up to its end, are; and the words behind it.
fn with_all(mut all: &[String]) -> (Given, &[String]) {
    let mut given = handed_in();
    loop {
        match all {
            [open, rest @ ..] if open == "(" || open == "∷" => all = rest,
            [end, rest @ ..] if end == "[]" => return (given, rest),
            _ => all = put_in(&mut given, all),
        }
    }
}

/// The values of each put of a list alone; of each list of puts.
fn each_alone(mut all: &[String]) -> (Vec<Given>, &[String]) {
    let mut each = Vec::new();
    loop {
        match all {
            [open, rest @ ..] if open == "(" || open == "∷" => all = rest,
            [end, _, rest @ ..] if end == "[]" => return (each, rest),
            _ => {
                let mut given = handed_in();
                all = put_in(&mut given, all);
                each.push(given);
            }
        }
    }
}

fn each_list(mut all: &[String]) -> (Vec<Given>, &[String]) {
    let mut each = Vec::new();
    while all[0] != "[]" || all[1] != ")" {
        match &all[..2] {
            [open, _] if open == "(" && each.is_empty() && all[1] == "(" => all = &all[1..],
            [link, _] if link == "∷" => all = &all[1..],
            [open, _] => {
                let (given, rest) = with_all(all);
                all = if open == "(" { &rest[1..] } else { rest };
                each.push(given);
            }
            _ => panic!("a list that does not end"),
        }
    }
    (each, &all[2..])
}

#[test]
fn values_are_refused_by_the_writer_so() {
    let mut seen = 0;
    for module in ["WriterRefusals", "WriterUnits"] {
        for (name, statement) in declarations(&theorems("refused", module)) {
            let all = words(&statement);
            let (given, expected) = match all[0].as_str() {
                "PutAlone" => {
                    let (expected, rest) = no(&all[1..]);
                    let given = each_alone(rest).0;
                    let same = vec![expected; given.len()];
                    (given, same)
                }
                "PutEach" => {
                    let (given, rest) = each_alone(&all[1..]);
                    (given, refusals(rest))
                }
                "PutTogether" => {
                    let (given, rest) = each_list(&all[1..]);
                    (given, refusals(rest))
                }
                _ => continue,
            };
            let told: Vec<Told> = given.iter().map(told_by_the_writer).collect();
            assert_eq!(told, expected, "{module} {name}");
            seen += told.len();
        }
    }
    assert!(seen > 70, "{seen} seen");
}

/// Zeros in lists that are long enough for so many units and requirements, as `counted 513 2 512 2`.
fn counted(all: &[String]) -> Given {
    let [units, requirements, long_for, long_for_requirements] = [0, 1, 2, 3].map(|at| number(&all[at]));
    let mut given = Given { units, requirements, ..handed_in() };
    let needed = writer::needed(long_for, long_for_requirements);
    for list in [writer::UNIT_ROWS, writer::UNIT_QUALITY, writer::READINGS, writer::REQUIREMENT_ROWS] {
        given.lists[list] = Lent::of(vec![0; needed[list] as usize]);
    }
    given
}

/// The lists cut to so many numbers, as `cut 45 50 375 36 30 225 13`.
fn cut(all: &[String]) -> Given {
    let mut given = handed_in();
    for (list, length) in given.lists.iter_mut().zip(all) {
        list.numbers.truncate(number(length) as usize);
        list.length = list.numbers.len() as i128;
    }
    given
}

#[test]
fn counts_are_refused_by_the_writer_so() {
    let mut seen = 0;
    for (name, statement) in declarations(&theorems("refused", "WriterRefusals")) {
        let all = words(&statement);
        let told: Vec<Told> = (0..all.len())
            .filter_map(|at| match all[at].as_str() {
                "counted" => Some(Given { room: number(&all[at + 6]), ..counted(&all[at + 1..]) }),
                "cut" => Some(cut(&all[at + 1..])),
                _ => None,
            })
            .map(|given| told_by_the_writer(&given))
            .collect();
        if told.is_empty() {
            continue;
        }
        let same = all.iter().position(|word| word == "≡").expect("what it is") + 1;
        let expected = match all[same].as_str() {
            "replicate" => vec![no(&all[same + 2..]).0; number(&all[same + 1]) as usize],
            _ => refusals(&all[same..]),
        };
        assert_eq!(told, expected, "{name}");
        seen += told.len();
    }
    assert_eq!(seen, 17);
}
