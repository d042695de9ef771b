//! Both sides of every field limit, in the bytes of a book.

mod common;

use common::{at, holds, refused};
use second::book::FREQUENCIES_AT;
use second::quantities::POINTS;
use second::sweep::{count_trials, far_trials, group_trials, limit_trials, put, quality_trials, small_book};
use second::write::to_bytes;

fn every_point() -> Vec<usize> {
    (1..=POINTS).collect()
}

#[test]
fn every_field_at_and_beyond_its_limits() {
    let trials = limit_trials(&every_point());
    assert!(trials.len() > 3_000, "{}", trials.len());
    holds(&trials);
}

#[test]
fn quality_bits_and_the_values_under_them() {
    holds(&quality_trials(&every_point()));
}

#[test]
fn item_counts() {
    holds(&count_trials());
}

#[test]
fn the_far_places_of_the_largest_book() {
    holds(&far_trials());
}

#[test]
fn groups_on_both_sides() {
    let trials = group_trials();
    holds(&trials);
    assert!(trials.iter().filter(|trial| trial.refusal.is_some()).count() > 20);
    assert!(trials.iter().filter(|trial| trial.refusal.is_none()).count() > 15);
}

/// The places of a few fields, counted by hand from document 01.
#[test]
fn places_counted_by_hand() {
    let frequency = FREQUENCIES_AT;
    let unit = 64 + 1_840;
    let requirement = unit + 6 * 372;
    let places = [
        (56, 2, 0, at(6, 1, 0)),                               // smoothing a
        (58, 1, 76, at(6, 1, 0)),                              // bad-frequency limit
        (59, 1, 101, at(6, 1, 0)),                             // bad-unit percent
        (frequency + 1, 1, 2, at(71, 1, 0)),                   // separation
        (frequency + 11, 1, 255, at(73, 1, 0)),                // the tenth quality byte
        (frequency + 12, 4, 5_000_001, at(71, 1, 0)),          // FM before
        (frequency + 16, 4, 2_000_001, at(71, 1, 0)),          // generation
        (frequency + 60, 8, 1, at(72, 1, 0)),                  // sixth residual default
        (frequency + 364, 4, 1, at(74, 1, 75)),                // 75th frequency
        (frequency + 4 * 368 + 364, 4, 1, at(74, 5, 75)),      // the same in region 4
        (unit + 2, 1, 5, at(81, 1, 0)),                        // region
        (unit + 3, 1, 2, at(81, 1, 0)),                        // kind
        (unit + 8, 4, 100_001, at(81, 1, 0)),                  // end
        (unit + 52, 8, 1, at(82, 1, 0)),                       // sixth default
        (unit + 69, 1, 255, at(83, 1, 0)),                     // the tenth quality byte
        (unit + 70, 2, 65_535, None),                          // group number
        (unit + 372 + 70, 2, 258, None),                       // of the second
        (unit + 368, 4, 100_001, at(84, 1, 75)),               // 75th reading
        (unit + 4 * 372 + 72, 4, 100_001, at(84, 5, 1)),       // first reading of the fifth
        (requirement + 2, 1, 32, at(10, 1, 0)),                // region set
        (requirement + 8, 8, 1_000_000_000_001, at(10, 1, 0)), // cost
        (requirement + 20, 4, 2_000_001, at(10, 1, 0)),        // used
        (requirement + 140, 4, 2_000_001, at(10, 6, 0)),       // used, of the sixth
    ];
    for (place, width, value, refusal) in places {
        let mut bytes = to_bytes(&small_book());
        put(&mut bytes, place, width, value);
        assert_eq!(refused(&bytes), refusal, "at {place}");
    }
}
