//! What the page of web/ shows, worked by hand.

use std::ffi::OsString;

use second::web::{factors, product, shown};

const PAPER: &str = "../tests/worked/listing.book";

fn paper(keys: &str) -> String {
    let bytes = std::fs::read(PAPER).expect("the paper's book");
    shown("paper", &OsString::from(PAPER), &bytes, keys.as_bytes()).expect("screens")
}

fn lines_from<'a>(text: &'a str, start: &str) -> Vec<&'a str> {
    text.lines().filter(|line| line.starts_with(start)).collect()
}

/// Unit 1 is 1 MW above zero throughout: its points stand at the top, zero at the bottom. Unit 2 is 0.3 MW below.
#[test]
fn strips_of_the_paper() {
    let text = paper("nn");
    let points = lines_from(&text, "points");
    assert_eq!(points.len(), 2);
    assert!(points[0].starts_with("points 20,20 36,20 52,20 ") && points[0].ends_with(" 1188,20 1204,20"));
    assert!(points[1].starts_with("points 20,259 36,259 ") && points[1].ends_with(" 1204,259"));
    let sizes = ["size 1225 280 dot 7 zero 259 mark 12 28", "size 1225 280 dot 7 zero 20 mark 251 267"];
    assert_eq!(lines_from(&text, "size"), sizes);
    let words = [
        "lowest 1.0000 MW highest 1.0000 MW last 1.0000 MW",
        "lowest -0.3000 MW highest -0.3000 MW last -0.3000 MW",
    ];
    assert_eq!(lines_from(&text, "words"), words.map(|words| format!("words {words}")));
}

/// The first page and the residual's have no strip.
#[test]
fn pages_without_a_strip() {
    assert_eq!(lines_from(&paper(""), "unit").len(), 0);
    let screens = paper("nnn");
    let last = screens.split("screen paper\n").last().expect("the residual");
    assert!(last.starts_with("residual        live\n"));
    assert_eq!(last.lines().count(), 4);
}

#[test]
fn products() {
    let all = u64::MAX;
    assert_eq!(product([all, 0, all, 0]), [1, all - 1]);
    assert_eq!(product([all, all, all, all]), [1, 0]);
    assert_eq!(product([1 << 32, 0, 1 << 32, 0]), [0, 1]);
    assert_eq!(product([0, 3, 5, 7]), [0, 15]);
    assert_eq!(factors(2, 7).len(), 10_002);
}
