//! What the program `trend` is held to (request R-2): books, whole and damaged, of every roster size, and books of units that are
//! made for the strip; and arguments that it does not know. A seed and a number name a book.

use crate::book::Book;
use crate::chance::Chance;
use crate::damage::damage;
use crate::make::{make, CLASSES, ROSTERS};
use crate::quantities::*;
use crate::strip_units::{make_bad, shaped_unit};
use crate::write::{base_book, base_requirement, to_bytes};

/// Bytes for the program, and how to make them again.
#[derive(Clone, Debug)]
pub struct StripTrial {
    pub name: String,
    pub bytes: Vec<u8>,
}

/// The roster of a number: each size in turn.
fn roster_of(nth: u64) -> usize {
    ROSTERS[nth as usize % ROSTERS.len()]
}

/// A made book of any class.
fn made_book(chance: &mut Chance, nth: u64) -> Book {
    let (class, _) = chance.pick(&CLASSES);
    make(chance.draw(), class, Some(roster_of(nth))).expect("a class of the list")
}

/// A book of units of every shape, one of nine bad; none is in a group, since they stand in any order.
fn shapes_book(chance: &mut Chance, nth: u64) -> Book {
    let mut book = base_book();
    let first = chance.between(0, 65_535 - ROSTERS[ROSTERS.len() - 1] as i128);
    for place in 0..roster_of(nth) {
        let mut unit = shaped_unit(chance);
        if chance.one_in(9) {
            make_bad(chance, &mut unit);
        }
        unit.number = first + place as i128;
        unit.group = 0;
        book.units.push(unit);
    }
    book.requirements.push(base_requirement(1, 31, Direction::Raise));
    book
}

/// The sorts of books; each meets every roster, since there are three of them and ten rosters.
const SORTS: [&str; 3] = ["made", "damaged", "shapes"];

pub fn book_trial(seed: u64, nth: u64) -> StripTrial {
    let mut chance = Chance::new(seed.wrapping_mul(0x1_0000_0001).wrapping_add(nth).wrapping_add(1 << 56));
    let sort = SORTS[nth as usize % SORTS.len()];
    let bytes = match sort {
        "shapes" => to_bytes(&shapes_book(&mut chance, nth)),
        _ => to_bytes(&made_book(&mut chance, nth)),
    };
    let bytes = if sort == "damaged" { damage(chance.draw(), &bytes) } else { bytes };
    StripTrial { name: format!("{seed}-{nth}-{sort}"), bytes }
}

/// Arguments that are not the one that `trend` knows.
pub fn wrong_arguments() -> Vec<Vec<&'static str>> {
    vec![
        vec!["bit"],
        vec!["bitss"],
        vec!["Bits"],
        vec!["BITS"],
        vec![""],
        vec![" bits"],
        vec!["bits "],
        vec!["-"],
        vec!["--bits"],
        vec!["75"],
        vec!["text"],
        vec!["bits", "bits"],
        vec!["bits", ""],
        vec!["", "bits"],
        vec!["bits", "bits", "bits"],
    ]
}
