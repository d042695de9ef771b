//! Where a refusal is (request R-1): its place in the body, from 1, and t of a refused point or reading, on both sides of
//! each edge, at places 1, 2, 5 and the last and at t 1, 2, 8, 9, 74 and 75. The places in the bytes are counted by hand.

mod common;

use common::{at, refused};
use second::book::*;
use second::boundary::*;
use second::listing::settle;
use second::quantities::*;
use second::replay::replay;
use second::sweep::{all, put, small_book, PLACES, TS};
use second::write::to_bytes;

const UNITS: usize = 6;
const REQUIREMENTS: usize = 6;

fn whole() -> Vec<u8> {
    to_bytes(&small_book())
}

/// Where a record begins, by its place from 1.
fn frequency(place: usize) -> usize {
    64 + 368 * (place - 1)
}

fn unit(place: usize) -> usize {
    1_904 + 372 * (place - 1)
}

fn requirement(place: usize) -> usize {
    1_904 + 372 * UNITS + 24 * (place - 1)
}

/// The small book with these fields: place in the bytes, width, value.
fn with(fields: &[(usize, usize, i128)]) -> Vec<u8> {
    let mut bytes = whole();
    for &(at, width, value) in fields {
        put(&mut bytes, at, width, value);
    }
    bytes
}

fn refused_with(fields: &[(usize, usize, i128)]) -> Option<Refusal> {
    refused(&with(fields))
}

/// The small book with a bad point at t, which holds this value.
fn with_bad(quality: usize, values: usize, t: usize, value: i128) -> Vec<u8> {
    let mut bytes = whole();
    bytes[quality + (t - 1) / 8] &= !(1 << ((t - 1) % 8));
    put(&mut bytes, values + 4 * (t - 1), 4, value);
    bytes
}

#[test]
fn settings_have_place_1() {
    for (at_byte, width, last, beyond) in [(56, 2, 10_000, 10_001), (58, 1, 75, 76), (59, 1, 100, 101)] {
        assert_eq!(refused_with(&[(at_byte, width, last)]), None);
        assert_eq!(refused_with(&[(at_byte, width, beyond)]), at(6, 1, 0));
    }
    assert_eq!(refused_with(&[(56, 2, 1)]), None);
    assert_eq!(refused_with(&[(56, 2, 0)]), at(6, 1, 0));
}

#[test]
fn a_frequency_records_place_is_one_more_than_its_region() {
    for place in 1..=REGIONS {
        let record = frequency(place);
        let region = place as i128 - 1;
        let edges = [
            (0, 1, region, region + 1, 71),
            (1, 1, 1, 2, 71),
            (11, 1, 0b111, 0b1111, 73),
            (12, 4, 5_000_000, 5_000_001, 71),
            (12, 4, -5_000_000, -5_000_001, 71),
            (16, 4, 2_000_000, 2_000_001, 71),
            (20, 8, 0, 1, 72),
            (60, 8, -50_000_000_000_000_000, -50_000_000_000_000_001, 72),
        ];
        for (field, width, last, beyond, number) in edges {
            assert_eq!(refused_with(&[(record + field, width, last)]), None, "{place} {field}");
            let refusal = refused_with(&[(record + field, width, beyond)]);
            assert_eq!(refusal, at(number, place, 0), "{place} {field}");
        }
    }
}

#[test]
fn a_refused_point_has_its_t() {
    for place in 1..=REGIONS {
        let (quality, values) = (frequency(place) + 2, frequency(place) + 68);
        for t in TS {
            let point = values + 4 * (t - 1);
            for (last, beyond) in [(45_000_000, 44_999_999), (55_000_000, 55_000_001), (45_000_000, 0)] {
                assert_eq!(refused_with(&[(point, 4, last)]), None, "{place} {t}");
                assert_eq!(refused_with(&[(point, 4, beyond)]), at(74, place, t), "{place} {t}");
            }
            assert_eq!(refused(&with_bad(quality, values, t, 0)), None, "{place} {t}");
            for value in [1, -1, 50_000_000] {
                let refusal = refused(&with_bad(quality, values, t, value));
                assert_eq!(refusal, at(74, place, t), "{place} {t}");
            }
        }
    }
}

#[test]
fn a_units_place_is_counted_from_1() {
    for place in PLACES {
        let record = unit(place);
        let edges = [
            (2, 1, 4, 5, 81),
            (3, 1, 1, 2, 81),
            (4, 4, 100_000, 100_001, 81),
            (8, 4, -100_000, -100_001, 81),
            (12, 8, 0, 1, 82),
            (52, 8, -5_625_000_000_000_000, -5_625_000_000_000_001, 82),
            (69, 1, 0b111, 0b1111, 83),
            (69, 1, 0b111, 0b1000_0111, 83),
        ];
        for (field, width, last, beyond, number) in edges {
            assert_eq!(refused_with(&[(record + field, width, last)]), None, "{place} {field}");
            let refusal = refused_with(&[(record + field, width, beyond)]);
            assert_eq!(refusal, at(number, place, 0), "{place} {field}");
        }
    }
}

#[test]
fn a_refused_reading_has_its_t() {
    for place in PLACES {
        let (quality, values) = (unit(place) + 60, unit(place) + 72);
        for t in TS {
            let reading = values + 4 * (t - 1);
            assert_eq!(refused_with(&[(reading, 4, 0)]), None, "a good 0 is allowed");
            for (last, beyond) in [(-100_000, -100_001), (100_000, 100_001)] {
                assert_eq!(refused_with(&[(reading, 4, last)]), None, "{place} {t}");
                assert_eq!(refused_with(&[(reading, 4, beyond)]), at(84, place, t), "{place} {t}");
            }
            assert_eq!(refused(&with_bad(quality, values, t, 0)), None, "{place} {t}");
            for value in [1, -1, 100_000] {
                let refusal = refused(&with_bad(quality, values, t, value));
                assert_eq!(refusal, at(84, place, t), "{place} {t}");
            }
        }
    }
}

/// Units are numbered 1 to 6: a number that is too low is told at its own record, one that is too high at the next.
#[test]
fn numbers_that_do_not_rise() {
    for place in [2, 5, 6] {
        for number in [0, place as i128 - 1] {
            assert_eq!(refused_with(&[(unit(place), 2, number)]), at(9, place, 0));
            assert_eq!(refused_with(&[(requirement(place), 2, number)]), at(10, place, 0));
        }
    }
    for place in [1, 2, 5] {
        for number in [place as i128 + 1, 65_535] {
            assert_eq!(refused_with(&[(unit(place), 2, number)]), at(9, place + 1, 0));
            assert_eq!(refused_with(&[(requirement(place), 2, number)]), at(10, place + 1, 0));
        }
    }
    assert_eq!(refused_with(&[(unit(1), 2, 0)]), None);
    assert_eq!(refused_with(&[(unit(6), 2, 65_535), (requirement(6), 2, 65_535)]), None);
}

#[test]
fn requirements_have_their_place_and_no_t() {
    for place in PLACES {
        let record = requirement(place);
        let edges = [
            (2, 1, 1, 0),
            (2, 1, 31, 32),
            (3, 1, 1, 2),
            (4, 4, 10_000_000, 10_000_001),
            (8, 8, 1_000_000_000_000, 1_000_000_000_001),
            (16, 4, 2_000_000, 2_000_001),
            (20, 4, 2_000_000, 2_000_001),
        ];
        for (field, width, last, beyond) in edges {
            assert_eq!(refused_with(&[(record + field, width, last)]), None, "{place} {field}");
            let refusal = refused_with(&[(record + field, width, beyond)]);
            assert_eq!(refusal, at(10, place, 0), "{place} {field}");
        }
    }
}

/// 1 names the record that was to be taken, also where no byte of it is left; what the table of contents refuses names none.
#[test]
fn cuts_and_bytes_behind() {
    let bytes = whole();
    for length in [0, 1, 55] {
        assert_eq!(refused(&bytes[..length]), at(1, 0, 0), "{length}");
    }
    let mut ends = vec![(56, 8, 1)];
    ends.extend((1..=REGIONS).map(|place| (frequency(place), 368, place)));
    ends.extend((1..=UNITS).map(|place| (unit(place), 372, place)));
    ends.extend((1..=REQUIREMENTS).map(|place| (requirement(place), 24, place)));
    for (start, size, place) in ends {
        for length in [start, start + 1, start + size - 1] {
            assert_eq!(refused(&bytes[..length]), at(1, place, 0), "{length}");
        }
    }
    assert_eq!(refused(&bytes), None);
    for behind in [1, 24, 372] {
        assert_eq!(refused(&[&bytes[..], &vec![0; behind]].concat()), at(4, REQUIREMENTS, 0));
    }
    for (field, value, number) in [(0, 0, 2), (4, 5, 3), (6, 1, 3), (8, 9, 3), (10, 2, 5), (46, 33, 5)] {
        assert_eq!(refused_with(&[(field, 1, value)]), at(number, 0, 0), "{field}");
    }
}

/// Of several wrong points or readings the first is named, whether it is a good or a bad one.
#[test]
fn the_first_wrong_point_is_named() {
    for (number, quality, values, beyond) in
        [(74, frequency(5) + 2, frequency(5) + 68, 0), (84, unit(5) + 60, unit(5) + 72, 100_001)]
    {
        for first in TS {
            for later in TS.into_iter().filter(|&later| later > first) {
                for (bad, good) in [(first, later), (later, first)] {
                    let mut bytes = with_bad(quality, values, bad, 1);
                    put(&mut bytes, values + 4 * (good - 1), 4, beyond);
                    assert_eq!(refused(&bytes), at(number, 5, first), "{first} {later}");
                }
            }
        }
        let mut bytes = whole();
        for t in (2..=75).rev() {
            put(&mut bytes, values + 4 * (t - 1), 4, beyond);
            assert_eq!(refused(&bytes), at(number, 5, t));
        }
    }
}

/// The order of the tests in a frequency record: 71, 73, 71, 72, 74; both orders of two faults in the bytes.
#[test]
fn two_faults_in_a_frequency_record() {
    for place in 1..=REGIONS {
        let record = frequency(place);
        let in_order = [
            ((record + 1, 1, 2), at(71, place, 0)),
            ((record + 11, 1, 255), at(73, place, 0)),
            ((record + 16, 4, 2_000_001), at(71, place, 0)),
            ((record + 60, 8, 1), at(72, place, 0)),
            ((record + 68, 4, 1), at(74, place, 1)),
            ((record + 364, 4, 1), at(74, place, 75)),
        ];
        for (nth, (earlier, refusal)) in in_order.into_iter().enumerate() {
            for (later, _) in &in_order[nth + 1..] {
                assert_eq!(refused_with(&[earlier, *later]), refusal, "{place} {nth}");
                assert_eq!(refused_with(&[*later, earlier]), refusal, "{place} {nth}");
            }
        }
    }
}

/// In a unit record: 81, 82, 83, 84, 9, 16, though the number stands first and the group before the readings.
#[test]
fn two_faults_in_a_unit_record() {
    for place in [2, 5, 6] {
        let record = unit(place);
        let in_order = [
            ((record + 2, 1, 5), at(81, place, 0)),
            ((record + 8, 4, 100_001), at(81, place, 0)),
            ((record + 12, 8, 1), at(82, place, 0)),
            ((record + 69, 1, 255), at(83, place, 0)),
            ((record + 76, 4, 100_001), at(84, place, 2)),
            ((record + 368, 4, 100_001), at(84, place, 75)),
            ((record, 2, 0), at(9, place, 0)),
            ((record + 70, 2, 256), at(16, place, 0)),
        ];
        // The unit before is of group 256 alone, unless this one, which holds a default, joins it.
        let group_before = (unit(place - 1) + 70, 2, 256);
        assert_eq!(refused_with(&[group_before]), None, "{place}");
        for (nth, (earlier, refusal)) in in_order.into_iter().enumerate() {
            assert_eq!(refused_with(&[group_before, earlier]), refusal, "{place} {nth}");
            for (later, _) in &in_order[nth + 1..] {
                assert_eq!(refused_with(&[group_before, earlier, *later]), refusal, "{place} {nth}");
            }
        }
    }
}

/// A fault in a later record never hides one in an earlier, whatever their numbers.
#[test]
fn faults_in_two_records() {
    let in_order = [
        ((58, 1, 76), at(6, 1, 0)),
        ((frequency(2) + 364, 4, 1), at(74, 2, 75)),
        ((frequency(5), 1, 0), at(71, 5, 0)),
        ((unit(1) + 69, 1, 0x0F), at(83, 1, 0)),
        ((unit(2), 2, 1), at(9, 2, 0)),
        ((unit(5) + 72, 4, 100_001), at(84, 5, 1)),
        ((unit(6) + 2, 1, 5), at(81, 6, 0)),
        ((requirement(1) + 3, 1, 2), at(10, 1, 0)),
        ((requirement(6) + 20, 4, 2_000_001), at(10, 6, 0)),
    ];
    for (nth, (earlier, refusal)) in in_order.into_iter().enumerate() {
        for (later, _) in &in_order[nth + 1..] {
            assert_eq!(refused_with(&[earlier, *later]), refusal, "{nth}");
        }
        let cut = with(&[earlier]);
        assert_eq!(refused(&cut[..cut.len() - 1]), if nth == 8 { at(1, 6, 0) } else { refusal }, "{nth}");
        assert_eq!(refused(&[&cut[..], &[0]].concat()), refusal, "{nth}");
    }
}

#[test]
fn what_the_programs_print() {
    assert_eq!(settle(b""), "refused 1 0 0\n");
    assert_eq!(settle(&whole()[..56]), "refused 1 1 0\n");
    assert_eq!(settle(&with(&[(0, 1, 0)])), "refused 2 0 0\n");
    assert_eq!(settle(&with(&[(unit(5) + 368, 4, 100_001)])), "refused 84 5 75\n");
    assert_eq!(settle(&[&whole()[..], &[0]].concat()), "refused 4 6 0\n");
    let week = [whole(), with(&[(frequency(3) + 72, 4, 0)])].concat();
    assert_eq!(replay(&week).0, "refused 74 2 3 2\n");
}

/// The known books have each number of a record at each of these places, and each t.
#[test]
fn the_known_books_cover_places_and_t() {
    let known: Vec<Refusal> = all().iter().filter_map(|trial| trial.refusal).collect();
    let has = |number: u8, place: usize, t: usize| known.contains(&Refusal { number, place, t });
    for place in PLACES {
        assert!([81, 82, 83].into_iter().all(|number| has(number, place, 0)), "{place}");
        assert!(TS.into_iter().all(|t| has(84, place, t)), "{place}");
        assert!(has(10, place, 0) && has(1, place, 0), "{place}");
        assert!(has(9, place, 0) || place == 1, "{place}");
    }
    for place in 1..=REGIONS {
        assert!([71, 72, 73].into_iter().all(|number| has(number, place, 0)), "{place}");
        assert!(TS.into_iter().all(|t| has(74, place, t)), "{place}");
    }
    assert!(has(84, 512, 75) && has(9, 512, 0) && has(1, 512, 0) && has(10, 32, 0) && has(4, 32, 0));
    assert!(!known.iter().any(|refusal| [7, 8].contains(&refusal.number)));
}

/// The small book's records in turn: call, bytes, place.
fn records() -> Vec<(&'static str, Vec<u8>, usize)> {
    let bytes = whole();
    let mut all = vec![("settings", bytes[56..64].to_vec(), 1)];
    let mut take = |kind, count, size, start: fn(usize) -> usize| {
        for place in 1..=count {
            all.push((kind, bytes[start(place)..start(place) + size].to_vec(), place));
        }
    };
    take("frequency", REGIONS, 368, frequency);
    take("unit", UNITS, 372, unit);
    take("requirement", REQUIREMENTS, 24, requirement);
    all
}

fn lent() -> Lent {
    let mut lent = Lent::default();
    for (name, ..) in NAMES {
        lent.fill(name, 2_000, 0);
    }
    lent
}

fn err(number: u8, place: usize, t: usize) -> Step {
    Err(Refusal { number, place, t })
}

/// The calls name the place of the record that was to be taken; after each refusal the record is still taken.
#[test]
fn calls_name_the_record_that_was_to_be_taken() {
    let mut lent = lent();
    lent.call("contents", &whole()).unwrap();
    for (kind, bytes, place) in records() {
        let before = lent.clone();
        assert_eq!(lent.call(kind, &[]), err(1, place, 0), "{kind}, no byte is left");
        assert_eq!(lent.call(kind, &bytes[..bytes.len() - 1]), err(1, place, 0), "{kind}");
        let wrong = |at: usize, width: usize, value: i128| {
            let mut bytes = bytes.clone();
            put(&mut bytes, at, width, value);
            bytes
        };
        match kind {
            "settings" => assert_eq!(lent.call(kind, &wrong(2, 1, 76)), err(6, 1, 0)),
            "frequency" => {
                assert_eq!(lent.call(kind, &wrong(0, 1, 5)), err(71, place, 0));
                assert_eq!(lent.call(kind, &wrong(20, 8, 1)), err(72, place, 0));
                assert_eq!(lent.call(kind, &wrong(11, 1, 255)), err(73, place, 0));
                assert_eq!(lent.call(kind, &wrong(364, 4, 0)), err(74, place, 75));
            }
            "unit" => {
                assert_eq!(lent.call(kind, &wrong(3, 1, 2)), err(81, place, 0));
                assert_eq!(lent.call(kind, &wrong(12, 8, 1)), err(82, place, 0));
                assert_eq!(lent.call(kind, &wrong(69, 1, 0x87)), err(83, place, 0));
                assert_eq!(lent.call(kind, &wrong(72, 4, 100_001)), err(84, place, 1));
                if place > 1 {
                    assert_eq!(lent.call(kind, &wrong(0, 2, 0)), err(9, place, 0));
                }
            }
            _ => {
                assert_eq!(lent.call(kind, &wrong(2, 1, 0)), err(10, place, 0));
                let longer = [&bytes[..], &[0]].concat();
                if place == REQUIREMENTS {
                    assert_eq!(lent.call(kind, &longer), err(4, place, 0));
                }
            }
        }
        assert_eq!(lent, before, "{kind} {place}");
        assert_eq!(lent.call(kind, &bytes), Ok(()), "{kind} {place}");
    }
}

/// 12 for a list names the record, 12 for the tally's own words and 11 name none.
#[test]
fn calls_that_are_lent_too_little_or_out_of_turn() {
    let mut lent = lent();
    lent.call("contents", &whole()).unwrap();
    for (kind, bytes, place) in records() {
        for &name in lists_of(kind) {
            let long = lent.list(name).lent;
            lent.list_mut(name).lent = 0;
            let expected = if name == "tally" { err(12, 0, 0) } else { err(12, place, 0) };
            assert_eq!(lent.call(kind, &bytes), expected, "{kind}, {name}");
            assert_eq!(lent.call(kind, &[]), expected, "{kind}, {name}, 12 before 1");
            lent.list_mut(name).lent = long;
        }
        for other in ["settings", "frequency", "unit", "requirement"] {
            if other != kind {
                assert_eq!(lent.call(other, &bytes), err(11, 0, 0), "{other} for {kind}");
            }
        }
        if kind == "unit" {
            let interval = lent.list("figures").numbers[0];
            lent.put("figures", 0, &[interval + 1]);
            assert_eq!(lent.call(kind, &[]), err(11, 0, 0), "another interval's figures");
            lent.put("figures", 0, &[interval]);
        }
        assert_eq!(lent.call(kind, &bytes), Ok(()), "{kind} {place}");
    }
}

/// What takes no record of a body, and the table of contents, have no place and no t.
#[test]
fn replies_without_a_place() {
    let mut lent = lent();
    assert_eq!(lent.call("contents", &whole()[..55]), err(1, 0, 0));
    assert_eq!(lent.call("contents", &with(&[(0, 1, 0)])), err(2, 0, 0));
    assert_eq!(lent.call("contents", &with(&[(34, 2, 513)])), err(5, 0, 0));
    lent.list_mut("tally").lent = 7;
    assert_eq!(lent.call("contents", &whole()), err(12, 0, 0));
    lent.list_mut("tally").lent = 8;
    lent.call("contents", &whole()).unwrap();
    for (kind, bytes, _) in records() {
        assert_eq!(lent.call(kind, &bytes), Ok(()));
    }
    let (_, mut bytes, _) = records().pop().expect("a requirement");
    assert_eq!(lent.call("answer", &bytes[..23]), err(1, 0, 0));
    bytes[2] = 0;
    assert_eq!(lent.call("answer", &bytes), err(10, 0, 0));
    lent.list_mut("factors").lent = 0;
    assert_eq!(lent.call("answer", &bytes), err(12, 0, 0));
    lent.list_mut("member").lent = 0;
    assert_eq!(lent.call("member", &[]), err(12, 0, 0));
}

#[test]
fn replies_in_words() {
    assert_eq!(reply_in_words("unit", Ok(())), "0 0 0");
    assert_eq!(reply_in_words("unit", err(84, 5, 75)), "84 5 75");
    assert_eq!(reply_in_words("units", err(84, 512, 75)), "84 512 75");
    assert_eq!(reply_in_words("units", err(11, 513, 0)), "11 513 0");
    assert_eq!(reply_in_words("contents", err(2, 0, 0)), "2 0 0");
    assert_eq!(reply_in_words("requirement", err(4, 32, 0)), "4 32 0");
    assert_eq!(reply_in_words("answer", Ok(())), "0");
    assert_eq!(reply_in_words("answer", err(10, 0, 0)), "10");
    assert_eq!(reply_in_words("member", err(11, 0, 0)), "11");
}
