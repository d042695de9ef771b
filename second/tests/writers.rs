//! The book writer (request R-4): the paper's book, the lengths and counts, every refusal and its order, the values in
//! damaged books beside `settle`, the book as text, the script, and what the makers reach.

use std::collections::{BTreeMap, BTreeSet};
use std::fs;
use std::io::Write;
use std::process::{Command, Output, Stdio};

use second::book::{read_book, Book, Refusal};
use second::book_text::*;
use second::damage::damage;
use second::make::{make, CLASSES, ROSTERS};
use second::quantities::*;
use second::sweep::{self, small_book};
use second::worked::{self, listing_book};
use second::write::to_bytes;
use second::writer::*;
use second::writer_fields::*;
use second::writer_script::*;
use second::writer_trials::*;

fn at(number: u8, place: usize, t: usize) -> Refusal {
    Refusal { number, place, t }
}

fn refused(given: &Given) -> Option<Refusal> {
    write(given).err()
}

/// The values of the small book, six units and six requirements, altered.
fn altered(alter: impl Fn(&mut Given)) -> Given {
    let mut given = values_of(&small_book());
    alter(&mut given);
    given
}

/// The small book's values with such numbers set: list, row's length, place of the row from 1, column.
fn with(set: &[(usize, usize, usize, usize, i128)]) -> Given {
    altered(|given| {
        for &(list, row, place, column, value) in set {
            given.lists[list].numbers[row * (place - 1) + column] = value;
        }
    })
}

fn region(place: usize, column: usize, value: i128) -> (usize, usize, usize, usize, i128) {
    (REGION_ROWS, REGION_ROW, place, column, value)
}

fn region_spare(place: usize) -> (usize, usize, usize, usize, i128) {
    (REGION_QUALITY, QUALITY_BYTES, place, 9, 0b1000_0111)
}

fn point(place: usize, t: usize, value: i128) -> (usize, usize, usize, usize, i128) {
    (FREQUENCY_POINTS, POINTS, place, t - 1, value)
}

fn unit(place: usize, column: usize, value: i128) -> (usize, usize, usize, usize, i128) {
    (UNIT_ROWS, UNIT_ROW, place, column, value)
}

fn unit_spare(place: usize) -> (usize, usize, usize, usize, i128) {
    (UNIT_QUALITY, QUALITY_BYTES, place, 9, 0b0000_1111)
}

fn reading(place: usize, t: usize, value: i128) -> (usize, usize, usize, usize, i128) {
    (READINGS, POINTS, place, t - 1, value)
}

fn requirement(place: usize, column: usize, value: i128) -> (usize, usize, usize, usize, i128) {
    (REQUIREMENT_ROWS, REQUIREMENT_ROW, place, column, value)
}

#[test]
fn the_paper_s_book_is_written_from_its_values() {
    let defaults = [0, 0, -1_000, 0, 0, 0];
    let all_good = [255, 255, 255, 255, 255, 255, 255, 255, 255, 7];
    let mut lists: [Vec<i128>; LISTS] = Default::default();
    for region in 0..5 {
        lists[REGION_ROWS].extend([0, 0, if region == 0 { 100_000 } else { 0 }]);
        lists[REGION_ROWS].extend(if region == 0 { defaults } else { [0; 6] });
        lists[REGION_QUALITY].extend(all_good);
        lists[FREQUENCY_POINTS].extend([if region == 0 { 49_980_000 } else { 50_000_000 }; 75]);
    }
    for (row, reading) in [([1, 0, 0, 10_000, 10_000, 0], 10_100), ([2, 0, 1, 5_000, 5_000, 0], 5_030)] {
        lists[UNIT_ROWS].extend(row.into_iter().chain(defaults));
        lists[UNIT_QUALITY].extend(all_good);
        lists[READINGS].extend([reading; 75]);
    }
    lists[REQUIREMENT_ROWS].extend([1, 1, 0, 1_200, 1_000, 1_000, 333]);
    let given = in_exact_room([10_000, 10, 20, 7], lists);
    let bytes = write(&given).expect("a book");
    assert_eq!(bytes.len(), 2_672);
    assert_eq!(given.room, 2_672);
    let worked = concat!(env!("CARGO_MANIFEST_DIR"), "/../tests/worked/listing.book");
    assert_eq!(bytes, fs::read(worked).expect("the worked book"));
    assert_eq!(given, values_of(&listing_book()));
}

#[test]
fn a_book_without_units_has_1928_bytes() {
    let mut given = values_of(&book_of_counts(0, 1));
    assert_eq!(given.room, 1_928);
    assert_eq!(write(&given).expect("a book").len(), 1_928);
    given.room = 1_927;
    assert_eq!(refused(&given), Some(at(12, 0, 0)));
    given.room = 2_000;
    assert_eq!(write(&given).expect("a book").len(), 1_928, "a longer buffer");
}

#[test]
fn the_largest_book_has_193136_bytes() {
    let mut given = values_of(&book_of_counts(512, 32));
    assert_eq!(write(&given).expect("a book").len(), 193_136);
    given.room = 193_135;
    assert_eq!(refused(&given), Some(at(12, 0, 0)));
}

#[test]
fn counts_past_their_limits_are_12_in_too_short_a_buffer_and_5_in_one_that_holds_them() {
    for (units, requirements) in [(513, 1), (0, 33), (513, 33), (2, 0), (513, 0)] {
        let mut given = values_of(&book_of_counts(units, requirements));
        assert_eq!(refused(&given), Some(at(5, 0, 0)), "{units} {requirements}");
        given.room -= 1;
        assert_eq!(refused(&given), Some(at(12, 0, 0)), "{units} {requirements}");
        given.room += 1;
        for list in 0..LISTS {
            let mut given = given.clone();
            if given.lists[list].length > 0 {
                given.lists[list].length -= 1;
                assert_eq!(refused(&given), Some(at(12, 0, 0)), "{units} {requirements} list {list}");
            }
        }
    }
    let most = i128::from(u32::MAX);
    for (units, requirements) in [(most, 1), (1, most), (most, most), (most, 0)] {
        let mut given = values_of(&book_of_counts(1, 1));
        (given.units, given.requirements) = (units, requirements);
        assert_eq!(refused(&given), Some(at(12, 0, 0)), "lists and buffer as they were");
        for (list, needed) in given.lists.iter_mut().zip(needed(units, requirements)) {
            list.length = needed;
        }
        given.room = 1_904 + 372 * units + 24 * requirements;
        assert_eq!(refused(&given), Some(at(5, 0, 0)), "{units} {requirements}");
        given.room -= 1;
        assert_eq!(refused(&given), Some(at(12, 0, 0)), "{units} {requirements}");
    }
}

#[test]
fn each_list_has_its_length() {
    let given = values_of(&small_book());
    let lengths: Vec<i128> = given.lists.iter().map(|list| list.length).collect();
    assert_eq!(lengths, [45, 50, 375, 72, 60, 450, 42]);
    for list in 0..LISTS {
        let short = altered(|given| given.lists[list].length -= 1);
        assert_eq!(refused(&short), Some(at(12, 0, 0)), "list {list}");
        let longer = altered(|given| {
            given.lists[list].numbers.push(255);
            given.lists[list].length += 1;
        });
        assert_eq!(write(&longer), write(&given), "list {list}");
        // 12 is before content, whatever is wrong there.
        let wrong = altered(|given| {
            given.lists[list].length -= 1;
            given.settings[0] = 0;
        });
        assert_eq!(refused(&wrong), Some(at(12, 0, 0)), "list {list}");
    }
}

#[test]
fn lists_may_have_more_records_than_are_counted() {
    let whole = small_book();
    let fewer =
        Book { units: whole.units[..5].to_vec(), requirements: whole.requirements[..2].to_vec(), ..whole };
    let given = altered(|given| (given.units, given.requirements) = (5, 2));
    assert_eq!(write(&given), Ok(to_bytes(&fewer)));
    // What is not counted is not looked at.
    let given = altered(|given| {
        (given.units, given.requirements) = (5, 2);
        given.lists[UNIT_ROWS].numbers[UNIT_ROW * 5 + 1] = 9;
        given.lists[REQUIREMENT_ROWS].numbers[REQUIREMENT_ROW * 2] = -1;
    });
    assert_eq!(write(&given), Ok(to_bytes(&fewer)));
}

#[test]
fn every_refusal_at_a_place_other_than_1() {
    let cases = [
        (region(4, 0, 2), at(71, 4, 0)),
        (region(4, 0, -1), at(71, 4, 0)),
        (region(4, 0, 256), at(71, 4, 0)),
        (region(3, 1, 5_000_001), at(71, 3, 0)),
        (region(3, 1, -5_000_001), at(71, 3, 0)),
        (region(3, 2, 2_000_001), at(71, 3, 0)),
        (region(3, 2, -1), at(71, 3, 0)),
        (region(5, 3, 1), at(72, 5, 0)),
        (region(5, 8, -50_000_000_000_000_001), at(72, 5, 0)),
        (region_spare(2), at(73, 2, 0)),
        (point(2, 75, 44_999_999), at(74, 2, 75)),
        (point(5, 1, 55_000_001), at(74, 5, 1)),
        (point(5, 8, 0), at(74, 5, 8)),
        (unit(5, 1, 5), at(81, 5, 0)),
        (unit(5, 1, -1), at(81, 5, 0)),
        (unit(6, 2, 2), at(81, 6, 0)),
        (unit(2, 3, 100_001), at(81, 2, 0)),
        (unit(2, 4, -100_001), at(81, 2, 0)),
        (unit(3, 6, 1), at(82, 3, 0)),
        (unit(3, 11, -5_625_000_000_000_001), at(82, 3, 0)),
        (unit_spare(4), at(83, 4, 0)),
        (unit(4, 5, 65_536), at(83, 4, 0)),
        (unit(4, 5, -1), at(83, 4, 0)),
        (reading(6, 74, 100_001), at(84, 6, 74)),
        (reading(6, 1, -100_001), at(84, 6, 1)),
        (unit(3, 0, 2), at(9, 3, 0)),
        (unit(6, 0, 65_536), at(9, 6, 0)),
        (unit(1, 0, -1), at(9, 1, 0)),
        (requirement(4, 0, 3), at(10, 4, 0)),
        (requirement(6, 0, 65_536), at(10, 6, 0)),
        (requirement(1, 0, -1), at(10, 1, 0)),
        (requirement(2, 1, 0), at(10, 2, 0)),
        (requirement(2, 1, 32), at(10, 2, 0)),
        (requirement(2, 1, 257), at(10, 2, 0)),
        (requirement(2, 2, 2), at(10, 2, 0)),
        (requirement(6, 3, 10_000_001), at(10, 6, 0)),
        (requirement(6, 4, 1_000_000_000_001), at(10, 6, 0)),
        (requirement(6, 5, 2_000_001), at(10, 6, 0)),
        (requirement(6, 6, -1), at(10, 6, 0)),
    ];
    for (set, refusal) in cases {
        assert_eq!(refused(&with(&[set])), Some(refusal), "{set:?}");
    }
    let group = with(&[unit(3, 5, 7), unit(5, 5, 7)]);
    assert_eq!(refused(&group), Some(at(16, 5, 0)), "a group split");
    let settings =
        [(0, 0), (0, 10_001), (0, 65_537), (1, 76), (1, -1), (2, 101), (2, 256), (3, -1), (3, 1 << 32)];
    for (column, value) in settings {
        let given = altered(|given| given.settings[column] = value);
        assert_eq!(refused(&given), Some(at(6, 1, 0)), "settings {column} {value}");
    }
    let edges = altered(|given| given.settings = [1, 75, 100, (1 << 32) - 1]);
    assert_eq!(refused(&edges), None);
}

/// A bad point or reading holds 0, and what a good reading may, a point may not.
#[test]
fn quality_goes_with_its_value() {
    let bad = |list: usize, place: usize| (list, QUALITY_BYTES, place, 0, 0b1110_1111);
    assert_eq!(refused(&with(&[bad(REGION_QUALITY, 3)])), Some(at(74, 3, 5)));
    assert_eq!(refused(&with(&[bad(REGION_QUALITY, 3), point(3, 5, 0)])), None);
    assert_eq!(refused(&with(&[bad(UNIT_QUALITY, 6)])), Some(at(84, 6, 5)));
    assert_eq!(refused(&with(&[bad(UNIT_QUALITY, 6), reading(6, 5, 0)])), None);
    assert_eq!(refused(&with(&[reading(6, 5, 0)])), None, "a good reading of 0");
    assert_eq!(refused(&with(&[point(3, 5, 0)])), Some(at(74, 3, 5)), "a good point of 0");
}

#[test]
fn groups_are_tested_last_in_their_record() {
    let apart = [unit(2, 5, 7), unit(4, 5, 7)];
    assert_eq!(refused(&with(&apart)), Some(at(16, 4, 0)));
    let together = |more: &[(usize, usize, usize, usize, i128)]| {
        let mut set = vec![unit(2, 5, 7), unit(3, 5, 7)];
        set.extend((6..12).map(|column| unit(3, column, 0)));
        set.extend(more);
        refused(&with(&set))
    };
    assert_eq!(together(&[]), None);
    assert_eq!(together(&[unit(3, 11, -1)]), Some(at(16, 3, 0)), "a default off the primary");
    assert_eq!(together(&[unit(3, 1, 1)]), Some(at(16, 3, 0)), "in two regions");
    assert_eq!(together(&[unit(3, 0, 2), unit(3, 1, 1)]), Some(at(9, 3, 0)), "9 before 16");
    assert_eq!(together(&[unit(3, 0, 70_000), unit(3, 1, 1)]), Some(at(9, 3, 0)), "past its width");
    assert_eq!(together(&[unit(3, 0, 2), unit(3, 1, 1), reading(3, 9, 100_001)]), Some(at(84, 3, 9)));
}

/// Faults of one record in the order of their tests, each of them alone and with every one that comes after it.
fn in_this_order(faults: &[((usize, usize, usize, usize, i128), Refusal)]) {
    for (nth, (first, refusal)) in faults.iter().enumerate() {
        for (second, _) in &faults[nth..] {
            assert_eq!(refused(&with(&[*first, *second])), Some(*refusal), "{first:?} {second:?}");
            assert_eq!(refused(&with(&[*second, *first])), Some(*refusal), "{second:?} {first:?}");
        }
    }
}

#[test]
fn two_faults_of_one_record_in_both_orders() {
    in_this_order(&[
        (region(2, 0, 2), at(71, 2, 0)),
        (region_spare(2), at(73, 2, 0)),
        (region(2, 1, 5_000_001), at(71, 2, 0)),
        (region(2, 2, -1), at(71, 2, 0)),
        (region(2, 5, 1), at(72, 2, 0)),
        (point(2, 9, 1), at(74, 2, 9)),
        (point(2, 10, 1), at(74, 2, 10)),
    ]);
    in_this_order(&[
        (unit(3, 1, 5), at(81, 3, 0)),
        (unit(3, 4, 100_001), at(81, 3, 0)),
        (unit(3, 8, 1), at(82, 3, 0)),
        (unit_spare(3), at(83, 3, 0)),
        (unit(3, 5, 65_536), at(83, 3, 0)),
        (reading(3, 2, 100_001), at(84, 3, 2)),
        (reading(3, 75, -100_001), at(84, 3, 75)),
        (unit(3, 0, 2), at(9, 3, 0)),
    ]);
}

#[test]
fn faults_of_two_records_in_both_orders() {
    in_this_order(&[
        (region(1, 3, 1), at(72, 1, 0)),
        (region(2, 0, 2), at(71, 2, 0)),
        (point(5, 75, 1), at(74, 5, 75)),
        (unit(2, 0, 1), at(9, 2, 0)),
        (unit(3, 1, 5), at(81, 3, 0)),
        (reading(6, 1, 100_001), at(84, 6, 1)),
        (requirement(1, 6, -1), at(10, 1, 0)),
        (requirement(5, 1, 0), at(10, 5, 0)),
    ]);
    let settings_too = altered(|given| {
        given.settings[0] = 0;
        given.lists[REGION_ROWS].numbers[0] = 2;
    });
    assert_eq!(refused(&settings_too), Some(at(6, 1, 0)));
}

#[test]
fn a_unit_with_84_and_9_and_one_with_9_and_16() {
    assert_eq!(refused(&with(&[reading(4, 3, 100_001), unit(4, 0, 3)])), Some(at(84, 4, 3)));
    let split = [unit(2, 5, 7), unit(4, 5, 7)];
    assert_eq!(refused(&with(&[split[0], split[1], unit(4, 0, 3)])), Some(at(9, 4, 0)));
    assert_eq!(refused(&with(&split)), Some(at(16, 4, 0)));
}

/// Numbers that would be right if they were cut to their field's width.
#[test]
fn a_number_past_its_width_is_never_cut() {
    let given = values_of(&small_book());
    let widths: [(usize, usize, &[u32]); 3] = [
        (REGION_ROWS, REGION_ROW, &[8, 32, 32]),
        (UNIT_ROWS, UNIT_ROW, &[16, 8, 8, 32, 32, 16]),
        (REQUIREMENT_ROWS, REQUIREMENT_ROW, &[16, 8, 8, 32, 64, 32, 32]),
    ];
    for (list, row, columns) in widths {
        for (column, &bits) in columns.iter().enumerate().filter(|(_, bits)| **bits < 64) {
            for by in [1i128 << bits, -(1i128 << bits)] {
                let mut given = given.clone();
                given.lists[list].numbers[row + column] += by;
                let cut = lay_out(&given);
                assert_eq!(read_book(&cut).err(), None, "cut to its width it would be right");
                assert_eq!(
                    refused(&given).map(|refusal| refusal.place),
                    Some(2),
                    "list {list} column {column}"
                );
            }
        }
    }
}

#[test]
fn every_made_book_is_written_again() {
    for (class, _) in CLASSES {
        for roster in ROSTERS {
            let bytes = to_bytes(&make(5, class, Some(roster)).expect("a class"));
            let given = values_in_bytes(&bytes).expect("values");
            assert_eq!(given, values_of(&read_book(&bytes).expect("a book")));
            assert_eq!(lay_out(&given), bytes);
            assert_eq!(write(&given), Ok(bytes), "{class} {roster}");
        }
    }
}

/// The writer's own order against the reader's: the values in the bytes of a book, table and length right, are refused as
/// the bytes are, or give the bytes.
fn told_alike(bytes: &[u8]) -> Option<Option<u8>> {
    let given = values_in_bytes(bytes)?;
    let read = read_book(bytes);
    let written = write(&given);
    assert_eq!(read.as_ref().err(), written.as_ref().err());
    assert_eq!(lay_out(&given), bytes);
    if let Ok(written) = written {
        assert_eq!(written, bytes);
    }
    Some(read.err().map(|refusal| refusal.number))
}

#[test]
fn writer_and_reader_refuse_alike() {
    let mut met: BTreeMap<Option<u8>, u64> = BTreeMap::new();
    for seed in 0..6_000u64 {
        let (class, _) = CLASSES[seed as usize % CLASSES.len()];
        let bytes = to_bytes(&make(seed, class, Some(seed as usize % 9)).expect("a class"));
        if let Some(number) = told_alike(&damage(seed, &bytes)) {
            *met.entry(number).or_default() += 1;
        }
    }
    for trial in sweep::all() {
        told_alike(&trial.bytes);
    }
    for nth in 0..2_000 {
        told_alike(&field_trial(3, nth).bytes);
    }
    let numbers: BTreeSet<u8> = met.keys().flatten().copied().collect();
    assert_eq!(numbers, BTreeSet::from([6, 71, 72, 73, 74, 81, 82, 83, 84, 9, 16, 10]));
    assert!(met.values().all(|&count| count >= 20), "{met:?}");
}

#[test]
fn the_script_s_damaged_books_are_refused_as_settle_refuses_them() {
    let mut tried = 0;
    for nth in 0..2_000 {
        let Some(bytes) = damaged_book(7, nth) else { continue };
        let (kind, given) = call(7, nth);
        assert_eq!(kind, "damaged");
        let said = answer(&given);
        match read_book(&bytes) {
            Ok(_) => {
                assert!(said.starts_with(&format!("written {} ", bytes.len())));
                assert_eq!(write(&given), Ok(bytes));
            }
            Err(refusal) => {
                assert!(said.starts_with(&format!("refused {refusal} ")));
                assert_eq!(second::listing::settle(&bytes), format!("refused {refusal}\n"));
            }
        }
        tried += 1;
    }
    assert_eq!(tried, 500);
}

#[test]
fn the_script_says_its_calls() {
    let mut script = Vec::new();
    write_calls(160, 9, &mut script).expect("room");
    let script = String::from_utf8(script).expect("words");
    assert_eq!(script.lines().count(), 160);
    for (nth, line) in script.lines().enumerate() {
        let (_, given) = call(9, nth as u64);
        assert_eq!(given_in(line).as_ref(), Some(&given));
        assert_eq!(answer_line(line), answer(&given));
    }
    assert_eq!(answer_line("1 2 3"), "bad line");
}

/// The sum is over the lent buffer and the bytes behind it, all 0xA5 before the call.
#[test]
fn an_answer_shows_every_byte_of_the_buffer() {
    let sum = |bytes: &[u8]| {
        let mut sum = 0xCBF2_9CE4_8422_2325u64;
        for &byte in bytes {
            sum = (sum ^ u64::from(byte)).wrapping_mul(0x100_0000_01B3);
        }
        sum
    };
    let mut given = values_of(&listing_book());
    given.room += 5;
    let shown = [to_bytes(&listing_book()), vec![0xA5; 5 + 16]].concat();
    assert_eq!(answer(&given), format!("written 2672 {:016x}", sum(&shown)));
    given.settings[1] = 76;
    assert_eq!(answer(&given), format!("refused 6 1 0 {:016x}", sum(&[0xA5; 2_672 + 5 + 16])));
    given.room = 1 << 40;
    given.units = 1 << 30;
    assert_eq!(answer(&given), format!("refused 12 0 0 {:016x}", sum(&[0xA5; (1 << 18) + 16])));
}

/// What the script has to meet: every answer, places and t of many sorts, rosters of every size.
#[test]
fn the_script_meets_every_answer() {
    let mut met: BTreeMap<String, u64> = BTreeMap::new();
    let (mut places, mut ts) = (BTreeSet::new(), BTreeSet::new());
    let mut written = BTreeSet::new();
    for nth in 0..4_000 {
        let (_, given) = call(2_026, nth);
        let said = answer(&given);
        let words: Vec<&str> = said.split(' ').collect();
        *met.entry(words[..if words[0] == "refused" { 2 } else { 1 }].join(" ")).or_default() += 1;
        if words[0] == "written" {
            written.insert(given.units);
        } else {
            places.insert((words[1].to_string(), words[2].to_string()));
            ts.insert((words[1].to_string(), words[3].to_string()));
        }
    }
    let numbers = [5, 6, 9, 10, 12, 16, 71, 72, 73, 74, 81, 82, 83, 84];
    let mut expected: Vec<String> = numbers.iter().map(|number| format!("refused {number}")).collect();
    expected.push("written".to_string());
    assert_eq!(met.keys().cloned().collect::<BTreeSet<_>>(), expected.into_iter().collect());
    assert!(met.values().all(|&count| count >= 60), "{met:?}");
    for number in ["9", "10", "16", "81", "82", "83", "84"] {
        assert!(places.iter().filter(|(of, _)| of == number).count() >= 10, "{number}");
    }
    for number in ["74", "84"] {
        assert!(ts.iter().filter(|(of, _)| of == number).count() >= 65, "{number}");
    }
    for units in [0, 1, 5, 7, 13, 76, 477, 509, 511, 512] {
        assert!(written.contains(&units), "{units} units");
    }
}

#[test]
fn the_paper_s_text_is_known() {
    let region = |row: &str, point: &str| format!("region {row}\n{}\n", [point; 75].join(" "));
    let mut text = "settings 10000 10 20 7\n".to_string();
    text += &region("0 0 100000 0 0 -1000 0 0 0", "49980000");
    (1..5).for_each(|_| text += &region("0 0 0 0 0 0 0 0 0", "50000000"));
    text += &format!("unit 1 0 0 10000 10000 0 0 0 -1000 0 0 0\n{}\n", ["10100"; 75].join(" "));
    text += &format!("unit 2 0 1 5000 5000 0 0 0 -1000 0 0 0\n{}\n", ["5030"; 75].join(" "));
    text += "requirement 1 1 0 1200 1000 1000 333\n";
    assert_eq!(printed_of_book(&to_bytes(&listing_book())), text);
    assert_eq!(paper_text(), text);
    assert_eq!(written_of_text(text.as_bytes()), to_bytes(&listing_book()));
}

#[test]
fn bad_points_are_marked() {
    let mut book = listing_book();
    for t in [1, 9, 75] {
        (book.frequencies[3].good[t - 1], book.frequencies[3].frequencies[t - 1]) = (false, 0);
        (book.units[1].good[t - 1], book.units[1].readings[t - 1]) = (false, 0);
    }
    book.units[0].readings[4] = 0;
    let text = printed_of_book(&to_bytes(&book));
    let lines: Vec<Vec<&str>> = text.lines().map(|line| line.split(' ').collect()).collect();
    for line in [8, 14] {
        let marked: Vec<usize> = (0..75).filter(|&point| lines[line][point] == "-").collect();
        assert_eq!(marked, [0, 8, 74]);
    }
    assert_eq!(lines[12][4], "0", "a good reading of 0");
    assert_eq!(written_of_text(text.as_bytes()), to_bytes(&book));
}

#[test]
fn known_texts_are_told_as_is_known() {
    for (trial, printed) in known_texts() {
        let ours = written_of_text(&trial.bytes);
        assert!(ours == printed, "{}: {}", trial.name, String::from_utf8_lossy(&ours).trim_end());
    }
}

/// Where a text ends too early, it is told by the line at which it ends, wherever that is.
#[test]
fn a_text_that_ends_early_is_told_by_its_last_line() {
    let text = paper_text();
    let words: Vec<&str> = text.split_inclusive([' ', '\n']).collect();
    let behind_the_regions = 5 + 5 * (1 + 9 + 75);
    let whole = [behind_the_regions, behind_the_regions + 88, behind_the_regions + 2 * 88];
    for count in 0..words.len() {
        let part = words[..count].concat();
        let said = if whole.contains(&count) {
            "refused 5 0 0\n".to_string()
        } else {
            format!("text {}\n", 1 + part.matches('\n').count())
        };
        assert_eq!(String::from_utf8_lossy(&written_of_text(part.as_bytes())), said, "{count} words");
    }
}

#[test]
fn every_book_is_given_back_from_its_text() {
    for (class, _) in CLASSES {
        for roster in ROSTERS {
            let bytes = to_bytes(&make(6, class, Some(roster)).expect("a class"));
            let text = printed_of_book(&bytes);
            assert!(!text.contains("  ") && !text.contains(" \n") && text.ends_with('\n'));
            assert_eq!(
                text.lines().count(),
                11 + 2 * roster + read_book(&bytes).expect("a book").requirements.len()
            );
            assert_eq!(written_of_text(text.as_bytes()), bytes, "{class} {roster}");
        }
    }
    for worked in worked::all() {
        let bytes = worked.bytes();
        let text = printed_of_book(&bytes);
        match read_book(&bytes) {
            Ok(_) => assert_eq!(written_of_text(text.as_bytes()), bytes, "{}", worked.name),
            Err(refusal) => assert_eq!(text, format!("refused {refusal}\n"), "{}", worked.name),
        }
    }
}

/// A text never asks for more room than there is, and has no spare bits.
#[test]
fn no_text_is_refused_with_12_73_or_a_spare_bit() {
    let mut met: BTreeMap<String, u64> = BTreeMap::new();
    for nth in 0..2_800 {
        let trial = text_trial(4, nth);
        let printed = written_of_text(&trial.bytes);
        let said = match values_in(&trial.bytes) {
            Ok(given) => match write(&given) {
                Ok(bytes) => {
                    assert_eq!(written_of_text(printed_of_book(&bytes).as_bytes()), bytes);
                    "a book".to_string()
                }
                Err(refusal) => format!("refused {}", refusal.number),
            },
            Err(line) => {
                assert_eq!(printed, format!("text {line}\n").into_bytes());
                "text".to_string()
            }
        };
        *met.entry(said).or_default() += 1;
    }
    let numbers = [5, 6, 9, 10, 16, 71, 72, 74, 81, 82, 83, 84];
    let mut expected: BTreeSet<String> = numbers.iter().map(|number| format!("refused {number}")).collect();
    expected.extend(["a book".to_string(), "text".to_string()]);
    assert_eq!(met.keys().cloned().collect::<BTreeSet<_>>(), expected, "{met:?}");
    assert!(met["text"] >= 500 && met["a book"] >= 300, "{met:?}");
}

fn run(program: &str, words: &[&str], input: &[u8]) -> Output {
    let mut child = Command::new(program)
        .args(words)
        .stdin(Stdio::piped())
        .stdout(Stdio::piped())
        .stderr(Stdio::piped())
        .spawn()
        .expect("a program");
    // A program that ends before it has read all is told by what it printed.
    let _ = child.stdin.take().expect("its input").write_all(input);
    child.wait_with_output().expect("its output")
}

#[test]
fn the_programs_print_what_they_should() {
    let (reader, writer) = (env!("CARGO_BIN_EXE_read_book"), env!("CARGO_BIN_EXE_write_book"));
    let paper = to_bytes(&listing_book());
    assert_eq!(run(reader, &[], &paper).stdout, paper_text().into_bytes());
    assert_eq!(run(writer, &[], paper_text().as_bytes()).stdout, paper);
    assert_eq!(run(reader, &[], &paper[..2_671]).stdout, b"refused 1 1 0\n");
    assert_eq!(run(reader, &[], b"").stdout, b"refused 1 0 0\n");
    assert_eq!(run(writer, &[], b"").stdout, b"text 1\n");
    let calls = line_of(&values_of(&listing_book()));
    let said = run(env!("CARGO_BIN_EXE_writers"), &["model"], calls.as_bytes()).stdout;
    assert_eq!(said, format!("{}\n", answer_line(&calls)).into_bytes());
}

/// Where the library's programs are not there, nothing passes.
#[test]
fn compare_says_what_is_missing() {
    let dir = std::env::temp_dir().join(format!("writers-{}", std::process::id()));
    fs::create_dir_all(&dir).expect("a folder");
    let ran = Command::new(env!("CARGO_BIN_EXE_writers"))
        .args(["compare", "3"])
        .current_dir(&dir)
        .env_remove("READ_BOOK")
        .env_remove("WRITE_BOOK")
        .env_remove("SETTLE")
        .output()
        .expect("a program");
    fs::remove_dir_all(&dir).expect("the folder");
    assert!(!ran.status.success());
    let said = String::from_utf8_lossy(&ran.stdout).into_owned();
    assert!(said.starts_with("writers: target/bin/read_book is not there"), "{said}");
}

/// The programs held against themselves agree; a wrong program does not.
#[test]
fn compare_tells_a_wrong_program() {
    let (reader, writer) = (env!("CARGO_BIN_EXE_read_book"), env!("CARGO_BIN_EXE_write_book"));
    let settle = env!("CARGO_BIN_EXE_settle");
    for (reader, fine) in [(reader, true), (settle, false)] {
        let dir = std::env::temp_dir().join(format!("writers-{}-{fine}", std::process::id()));
        fs::create_dir_all(&dir).expect("a folder");
        let ran = Command::new(env!("CARGO_BIN_EXE_writers"))
            .args(["compare", "24"])
            .current_dir(&dir)
            .envs([("READ_BOOK", reader), ("WRITE_BOOK", writer), ("SETTLE", settle)])
            .output()
            .expect("a program");
        fs::remove_dir_all(&dir).expect("the folder");
        assert_eq!(ran.status.success(), fine);
        let said = String::from_utf8_lossy(&ran.stdout).into_owned();
        assert_eq!(said.trim_end().ends_with(" passed, 0 failed"), fine, "{said}");
    }
}
