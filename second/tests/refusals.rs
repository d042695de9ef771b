//! Every refusal of a book, and their order.

mod common;

use std::collections::{BTreeMap, BTreeSet};

use common::{at, holds, refused};
use second::book::{Refusal, UNITS_AT};
use second::chance::Chance;
use second::damage::damage;
use second::listing::settle;
use second::make::{make, CLASSES};
use second::sweep::*;
use second::write::to_bytes;

fn whole() -> Vec<u8> {
    to_bytes(&small_book())
}

#[test]
fn of_two_wrong_fields_the_earlier_is_named() {
    let trials = order_trials();
    holds(&trials);
    let named: BTreeSet<u8> =
        trials.iter().flat_map(|trial| trial.refusal).map(|refusal| refusal.number).collect();
    assert_eq!(named, BTreeSet::from([2, 3, 5, 6, 71, 72, 73, 74, 81, 82, 83, 84, 9, 16, 10]));
}

#[test]
fn every_cut_is_refusal_1() {
    let bytes = whole();
    for length in 0..bytes.len() {
        let refusal = refused(&bytes[..length]).expect("a refusal");
        assert_eq!(refusal.number, 1, "cut at {length}");
        assert_eq!(Some(refusal), cut_refusal(length), "cut at {length}");
    }
}

#[test]
fn cuts_at_borders_and_bytes_that_follow() {
    holds(&cut_trials());
}

#[test]
fn a_cut_and_a_wrong_field() {
    holds(&cut_and_wrong_trials());
}

/// Each of 81 to 84 and 9 in one unit record, the number first by its place.
#[test]
fn the_number_of_a_unit_is_tested_last() {
    let unit = UNITS_AT + 372;
    let faults = [
        (unit + 2, 1, 5, at(81, 2, 0)),
        (unit + 12, 8, 1, at(82, 2, 0)),
        (unit + 69, 1, 0x0F, at(83, 2, 0)),
        (unit + 368, 4, 100_001, at(84, 2, 75)),
    ];
    for (place, width, value, refusal) in faults {
        let mut bytes = whole();
        put(&mut bytes, unit, 2, 1);
        assert_eq!(refused(&bytes), at(9, 2, 0));
        put(&mut bytes, place, width, value);
        assert_eq!(refused(&bytes), refusal);
    }
}

const NUMBERS: [u8; 17] = [1, 2, 3, 4, 5, 6, 71, 72, 73, 74, 81, 82, 83, 84, 9, 16, 10];

/// What so many damaged books with few units are refused with.
fn refusals_of_damage(seeds: u64) -> Vec<Option<Refusal>> {
    let of = |seed: u64| {
        let (class, _) = CLASSES[seed as usize % CLASSES.len()];
        let bytes = to_bytes(&make(seed, class, Some(seed as usize % 8)).unwrap());
        refused(&damage(seed, &bytes))
    };
    (0..seeds).map(of).collect()
}

/// Damaged books reach every refusal that a book can meet, and none beyond.
#[test]
fn damage_reaches_every_refusal() {
    let all = refusals_of_damage(1_500);
    let mut seen: BTreeMap<u8, u32> = BTreeMap::new();
    all.iter().flatten().for_each(|refusal| *seen.entry(refusal.number).or_default() += 1);
    assert_eq!(seen.keys().copied().collect::<BTreeSet<u8>>(), BTreeSet::from(NUMBERS));
    assert!(seen.values().all(|&count| count >= 5), "{seen:?}");
    let settled = all.iter().filter(|refusal| refusal.is_none()).count();
    assert!(settled >= 100, "{settled} still valid");
}

/// At places other than 1 where a body has more than one record, and with every t.
#[test]
fn damage_reaches_every_t_and_many_places() {
    let all: Vec<Refusal> = refusals_of_damage(8_000).into_iter().flatten().collect();
    let of = |number: u8| all.iter().filter(move |refusal| refusal.number == number);
    for number in [1, 4, 71, 72, 73, 74, 81, 82, 83, 84, 9, 16, 10] {
        let places: BTreeSet<usize> = of(number).map(|refusal| refusal.place).collect();
        let first = if [9, 16].contains(&number) { 2 } else { 1 };
        assert!((first..=5).all(|place| places.contains(&place)), "{number}: {places:?}");
    }
    for number in [74, 84] {
        let ts: BTreeSet<usize> = of(number).map(|refusal| refusal.t).collect();
        assert_eq!(ts, (1..=75).collect(), "{number}");
    }
    for number in [2, 3, 5] {
        assert!(of(number).all(|refusal| refusal.place == 0 && refusal.t == 0), "{number}");
    }
    assert!(of(6).all(|refusal| refusal.place == 1));
    assert!(all.iter().all(|refusal| (refusal.t == 0) != [74, 84].contains(&refusal.number)));
}

/// Bytes that were never a book.
#[test]
fn arbitrary_bytes_get_an_answer() {
    let mut chance = Chance::new(5);
    for _ in 0..5_000 {
        let length = chance.any_size(4_000) as usize;
        let mut bytes: Vec<u8> = (0..length).map(|_| chance.draw() as u8).collect();
        let kept = chance.pick(&[0, 4, 8, 56, 64, 432]).min(length);
        bytes[..kept].copy_from_slice(&whole()[..kept]);
        let answer = settle(&bytes);
        assert!(answer.starts_with("refused "), "{answer}");
    }
}
