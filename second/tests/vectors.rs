//! The outside vectors of tests/vectors against the second program, through whole
//! books and through the rules one by one.

use std::path::{Path, PathBuf};

use second::cents::share_both_signs;
use second::deviation::deviation;
use second::listing::settle;
use second::measure::{measures, next_measure};
use second::quantities::*;
use second::rcr::helpful_sum;
use second::vectors::{all, check_output, decimal, read_listing, rows};
use second::write::{base_frequency, to_bytes};

fn dir() -> PathBuf {
    Path::new(env!("CARGO_MANIFEST_DIR")).join("../tests/vectors")
}

#[test]
fn every_vector_through_a_book() {
    for vector in all(&dir()) {
        let output = settle(&to_bytes(&vector.book));
        check_output(&dir(), &vector, &output).unwrap_or_else(|what| panic!("{}: {what}", vector.name));
    }
}

/// A wrong figure in a listing is noticed by the vector that publishes it.
#[test]
fn every_vector_can_fail() {
    for mut vector in all(&dir()) {
        assert!(check_output(&dir(), &vector, "refused 1\n").is_err(), "{}", vector.name);
        // A wrong smoothing, start, generation sign or cost moves every vector's figures.
        vector.book.settings.smoothing = 2_300;
        vector.book.units.iter_mut().for_each(|unit| unit.start += 1);
        vector.book.units.iter_mut().for_each(|unit| unit.defaults[0] = unit.defaults[0] * 9 / 10);
        vector.book.requirements.iter_mut().for_each(|requirement| requirement.used += 10);
        let output = settle(&to_bytes(&vector.book));
        assert!(check_output(&dir(), &vector, &output).is_err(), "{}", vector.name);
    }
}

#[test]
fn data_files_are_complete() {
    let counts = [
        ("frequency_measure.txt", 75),
        ("one_step_measure.txt", 10),
        ("reference_trajectory.txt", 8),
        ("contribution_factors.txt", 10),
        ("corrective_response.txt", 76),
        ("usage.txt", 17),
    ];
    for (name, count) in counts {
        assert_eq!(rows(&dir(), name).len(), count, "{name}");
    }
}

#[test]
fn published_decimals_are_read_exactly() {
    assert_eq!(decimal("0.00800", 6), 8_000);
    assert_eq!(decimal("-3.362E-05", 12), -33_620_000);
    assert_eq!(decimal("-0.0", 3), 0);
    assert_eq!(decimal("-0.00003", 6), -30);
    assert_eq!(decimal("120", 0), 120);
}

/// The largest distance from table 15 is what its data file states, no more, no less.
#[test]
fn table_15_at_its_tolerance() {
    let rows = rows(&dir(), "frequency_measure.txt");
    let mut record = base_frequency(3);
    for (point, row) in rows.iter().enumerate() {
        record.frequencies[point] = FREQUENCY_NOMINAL + decimal(&row[1], 6);
        assert_eq!(decimal(&row[1], 5), -decimal(&row[2], 5), "the published negative");
    }
    record.good[0] = false;
    record.frequencies[0] = 0;
    let measures = measures(2_222, &record);
    let away = |place: usize| (measures[place] - decimal(&rows[place][3], 6)).abs();
    assert_eq!((0..POINTS).map(away).max(), Some(5));
    let longer = |place: usize| {
        let published = decimal(&rows[place][4], 12) + decimal(&rows[place][5], 12);
        (measures[place] * 1_000_000 - published).abs()
    };
    assert_eq!((0..POINTS).map(longer).max(), Some(1_700_000));
}

#[test]
fn one_step_of_004() {
    let rows = rows(&dir(), "one_step_measure.txt");
    for place in 0..5 {
        let (before, after) = (&rows[place], &rows[place + 5]);
        assert_eq!(before[1], after[1]);
        let measure = next_measure(2_222, decimal(&before[3], 6), decimal(&after[2], 6));
        assert!((measure - decimal(&after[3], 6)).abs() <= 1, "{}", after[1]);
    }
}

#[test]
fn trajectory_of_tables_4_and_5() {
    let rows = rows(&dir(), "reference_trajectory.txt");
    let (start, end) = (decimal(&rows[0][2], 5) / 1_000, decimal(&rows[1][2], 5) / 1_000);
    for (minute, row) in rows[2..].iter().enumerate() {
        let reference = decimal(&row[2], 3) * 75 / 10;
        assert_eq!(deviation(false, start, end, 0, 15 * minute as i128), -reference, "{}", row[1]);
    }
}

#[test]
fn factors_of_tables_6_to_9() {
    let rows = rows(&dir(), "contribution_factors.txt");
    let members: Vec<_> = rows.iter().filter(|row| row[0] == "unit" || row[0] == "joined").collect();
    let column = |from_last: usize, places: u32| -> Vec<i128> {
        members.iter().map(|row| decimal(&row[row.len() - from_last], places)).collect()
    };
    assert_eq!(share_both_signs(FACTOR_ONE, &column(2, 0)).unwrap(), column(1, 9));
    let residuals: i128 = rows.iter().filter(|row| row[0] == "residual").map(|row| decimal(&row[2], 0)).sum();
    assert_eq!(Some(&residuals), column(2, 0).last());
}

/// Every row of table 17: the sums with the residual, and the residual itself.
#[test]
fn sums_of_table_17() {
    for row in rows(&dir(), "corrective_response.txt").iter().filter(|row| row[0] == "point") {
        let parties = [decimal(&row[2], 2), decimal(&row[3], 2)];
        let residual = -parties[0] - parties[1];
        assert!((residual - decimal(&row[4], 2)).abs() <= 1, "{}", row[1]);
        assert_eq!(helpful_sum(Direction::Raise, &parties), decimal(&row[5], 2), "{}", row[1]);
        let lower = helpful_sum(Direction::Lower, &parties);
        assert_eq!(lower, -decimal(&row[6], 2), "{}", row[1]);
    }
}

#[test]
fn a_listing_is_read_back() {
    let printed = read_listing(
        "interval 7\nrequirement 1 raise 2 3 4 5 6 7\nunit 9 live -8 9 0 0 0\nresidual live 8 1 0 0 0\n",
    )
    .unwrap();
    assert_eq!((printed[0].rcr, printed[0].used_pool), (2, 4));
    assert_eq!(printed[0].members, [(-8, 9), (8, 1)]);
    assert!(read_listing("interval 7\nunit 9 live 8 9 0 0 0\n").is_err());
}
