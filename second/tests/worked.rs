//! The kept worked books are those of the program, and print what is kept.

use std::fs;
use std::path::Path;

use second::cents::{settle_book, Settled};
use second::describe::series;
use second::listing::{settle, write_listing};
use second::quantities::Direction;
use second::rules::{earlier_first, shares_that_differ};
use second::worked::all;

#[test]
fn kept_files_are_up_to_date() {
    let dir = Path::new(env!("CARGO_MANIFEST_DIR")).join("../tests/worked");
    for worked in all() {
        let read = |ending: &str| fs::read(dir.join(format!("{}.{ending}", worked.name))).unwrap();
        let bytes = worked.bytes();
        assert_eq!(read("book"), bytes, "{}", worked.name);
        assert_eq!(read("listing"), settle(&bytes).as_bytes(), "{}", worked.name);
        assert_eq!(String::from_utf8(read("txt")).unwrap(), worked.text(), "{}", worked.name);
    }
}

/// Each of the six shares, in both directions, has a tie that the rule before request R-9 broke otherwise.
#[test]
fn larger_first_shows_every_share() {
    let worked = all().into_iter().find(|worked| worked.name == "larger_first").unwrap();
    let settled = settle_book(&worked.book).unwrap();
    assert_eq!(settled.iter().map(|one| one.direction).collect::<Vec<_>>(), Direction::BOTH);
    for one in &settled {
        assert_eq!(shares_that_differ(one), [true; 6], "requirement {}", one.number);
    }
}

/// What the rule before request R-9 would have listed of it.
#[test]
fn larger_first_by_the_rule_before() {
    let worked = all().into_iter().find(|worked| worked.name == "larger_first").unwrap();
    let before: Vec<Settled> = settle_book(&worked.book).unwrap().iter().map(earlier_first).collect();
    assert_eq!(write_listing(111, &before), BEFORE);
}

const BEFORE: &str = "\
interval 111
requirement 1 raise 22500 200 200 300 0 0
unit 1 live 240000000 13333334 3 0 -13
unit 2 live 60000000 3333333 1 0 -38
unit 3 live 17700000000 983333333 196 0 -13
unit 4 live -120000000 -3333334 -1 -1 -38
unit 5 live -300000000 -8333333 -2 -3 -62
unit 6 default -11940000000 -331666667 -66 -24 -37
unit 7 default -6060000000 -168333333 -34 -26 -62
residual live -17580000000 -488333333 -97 -146 -37
requirement 2 lower 22500 400 120 80 0 0
unit 1 live -210000000 -6666667 -3 -2 -6
unit 2 live -52500000 -1666667 -1 0 -14
unit 3 live -15487500000 -491666667 -197 -98 0
unit 4 live 105000000 6666667 3 0 -21
unit 5 live 262500000 16666667 7 0 -13
unit 6 default -5407500000 -171666666 -68 -13 -5
unit 7 default -10342500000 -328333333 -131 -7 0
residual live 15382500000 976666666 390 0 -21
";

#[test]
fn series_in_words() {
    assert_eq!(series(&[5, 5, 5]), "t 1 to 3: 5");
    assert_eq!(series(&[1, 2, 3]), "t 1 to 3: t");
    assert_eq!(series(&[-2, -4, -6, 0]), "t 1 to 3: -2·t; t 4: 0");
    assert_eq!(series(&[8, 6, 4, 9, 9, 7]), "t 1 to 3: 10 - 2·t; t 4 to 5: 9; t 6: 7");
    assert_eq!(series(&[7, 1]), "t 1: 7; t 2: 1");
}
