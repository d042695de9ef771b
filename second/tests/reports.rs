//! The performance report (request R-11): worked rows, dates, numbers, wrong rows and their
//! columns, the three doors, what the two programs print, and what the makers of trials reach.

use std::collections::{BTreeMap, BTreeSet};
use std::io::Write;
use std::process::{Command, Output, Stdio};

use second::book::{Book, Refusal};
use second::boundary::Lent;
use second::calendar::*;
use second::chance::Chance;
use second::make::{make, CLASSES};
use second::quantities::*;
use second::report::*;
use second::report_changes::*;
use second::report_door::*;
use second::report_lines::*;
use second::report_read::*;
use second::report_script::*;
use second::report_text::*;
use second::report_trials::*;
use second::report_words::*;
use second::roster::grouped;
use second::worked::listing_book;
use second::write::{base_book, base_requirement, base_unit, to_bytes};

const ZERO: Shown = Shown { performance: 0, of_type: Type::Calculated };
/// A row whose columns are worked by hand below.
const ROW: &str = "01/01/2000 00:35:00,12,1.500000000,Calculated,-0.450000000,Default,10\n";

fn unit_row(interval: i128, number: i128, raise: i128, lower: i128) -> Row {
    let shown = |performance: i128| Shown { performance, of_type: Type::Calculated };
    Row { interval, who: Who::Unit(number), raise: shown(raise), lower: shown(lower), version: 1 }
}

/// The numbers of a row for the door.
fn call_of(row: &Row) -> RowCall {
    let (residual, number) = match row.who {
        Who::Unit(number) => (0, number),
        Who::Residual(region) => (1, region as i128),
    };
    RowCall {
        interval: row.interval,
        residual,
        number,
        raise: row.raise.performance,
        raise_type: row.raise.of_type.number(),
        lower: row.lower.performance,
        lower_type: row.lower.of_type.number(),
        version: row.version,
    }
}

fn shown_as(performance: i128) -> String {
    in_megawatt_hertz(billionths(performance))
}

fn wrong(column: usize) -> Refusal {
    Refusal::of(18).at_t(column)
}

/// The first wrong column of a row; None where it is read.
fn wrong_column(row: &[u8]) -> Option<usize> {
    let refusal = read_row(row).err()?;
    assert_eq!((refusal.number, refusal.place), (18, 0));
    Some(refusal.t)
}

#[test]
fn the_market_s_own_row() {
    let row = unit_row(2_266_910, 1, 7_405_905_368, -11_646_248_025);
    let text = "20/07/2021 05:10:00,1,0.987454049,Calculated,-1.552833070,Calculated,1\n";
    assert_eq!(row_text(&row), Ok(text.to_string()));
    let read = read_row(text.as_bytes()).expect("a row");
    assert_eq!((read.interval, read.raise, read.lower), (2_266_910, 987_454_049, -1_552_833_070));
    assert_eq!((read.who, read.raise_type, read.version), (Who::Unit(1), Type::Calculated, 1));
    // The market leaves a last zero out; our rows have nine decimals.
    let shorter = "20/07/2021 05:10:00,1,0.987454049,Calculated,-1.55283307,Calculated,1\n";
    assert_eq!(wrong_column(shorter.as_bytes()), Some(5));
}

/// Interval 7 ends at 00:35. Region 0 has FM 20,000 throughout, so that raise is live and lower is
/// not; the others have FM 0 and are neither. 11,250,000,000 is 1.5 MWHz, -3,375,000,000 is -0.45,
/// -7,875,000,000 is -1.05.
#[test]
fn the_paper_s_book_has_seven_rows() {
    let rows = "\
01/01/2000 00:35:00,1,1.500000000,Calculated,0.000000000,Default,1
01/01/2000 00:35:00,2,-0.450000000,Calculated,0.000000000,Default,1
01/01/2000 00:35:00,Residual QLD1,-1.050000000,Calculated,0.000000000,Default,1
01/01/2000 00:35:00,Residual NSW1,0.000000000,Default,0.000000000,Default,1
01/01/2000 00:35:00,Residual VIC1,0.000000000,Default,0.000000000,Default,1
01/01/2000 00:35:00,Residual SA1,0.000000000,Default,0.000000000,Default,1
01/01/2000 00:35:00,Residual TAS1,0.000000000,Default,0.000000000,Default,1
";
    let bytes = to_bytes(&listing_book());
    assert_eq!(report_printed(&bytes, 1), rows);
    assert_eq!(report_printed(&bytes, 65_535), rows.replace(",1\n", ",65535\n"));
    let numbers = "\
7 unit 1 1500000000 Calculated 0 Default 1
7 unit 2 -450000000 Calculated 0 Default 1
7 residual QLD1 -1050000000 Calculated 0 Default 1
7 residual NSW1 0 Default 0 Default 1
7 residual VIC1 0 Default 0 Default 1
7 residual SA1 0 Default 0 Default 1
7 residual TAS1 0 Default 0 Default 1
";
    assert_eq!(rows_printed(rows.as_bytes()), numbers);
}

#[test]
fn worked_dates() {
    let worked = [
        (0, "01/01/2000 00:00:00"),
        (1, "01/01/2000 00:05:00"),
        (12, "01/01/2000 01:00:00"),
        (287, "01/01/2000 23:55:00"),
        (288, "02/01/2000 00:00:00"),
        (16_991, "28/02/2000 23:55:00"),
        (16_992, "29/02/2000 00:00:00"),
        (17_280, "01/03/2000 00:00:00"),
        (2_266_910, "20/07/2021 05:10:00"),
        (10_536_191, "28/02/2100 23:55:00"),
        (10_536_192, "01/03/2100 00:00:00"),
        (42_092_928, "29/02/2400 00:00:00"),
        (42_093_216, "01/03/2400 00:00:00"),
        (841_518_719, "31/12/9999 23:55:00"),
    ];
    for (interval, text) in worked {
        assert_eq!(date_and_time(interval).as_deref(), Ok(text));
        assert_eq!(interval_at(text), Some(interval));
    }
    for interval in [841_518_720, 841_518_721, i128::from(u32::MAX)] {
        assert_eq!(date_and_time(interval), Err(Refusal::of(15)));
    }
}

#[test]
fn leap_years_are_the_gregorian_ones() {
    let leap = [2000, 2004, 2096, 2104, 2400, 2800, 9996];
    let common = [2001, 2100, 2200, 2300, 2500, 9900, 9999];
    assert!(leap.iter().all(|&year| is_leap(year)));
    assert!(!common.iter().any(|&year| is_leap(year)));
    // 97 in every 400 years.
    assert_eq!((2000..10_000).filter(|&year| is_leap(year)).count(), 20 * 97);
}

/// Day by day on its own calendar; at the ends of each month both ways are asked.
#[test]
fn all_days_of_8000_years_follow_each_other() {
    let mut days = 0;
    for year in FIRST_YEAR..=LAST_YEAR {
        for month in 1..=MONTHS {
            for day in [1, days_of_month(year, month)] {
                let date = Date { year, month, day };
                assert_eq!(date_after(days + day - 1), date);
                assert_eq!(days_before(date), Some(days + day - 1));
            }
            days += days_of_month(year, month);
        }
    }
    assert_eq!(i128::from(days) * INTERVALS_OF_A_DAY, LAST_INTERVAL + 1);
}

#[test]
fn every_time_of_a_day_comes_back() {
    for day in [0, 59, 366, 36_584, 2_921_939] {
        for time in 0..INTERVALS_OF_A_DAY {
            let interval = INTERVALS_OF_A_DAY * day + time;
            assert_eq!(interval_at(&date_and_time(interval).expect("a date")), Some(interval));
        }
    }
}

#[test]
fn worked_performances() {
    let worked = [
        (0, "0.000000000"),
        (1, "0.000000000"),
        (3, "0.000000000"),
        (4, "0.000000001"),
        (-1, "0.000000000"),
        (-3, "0.000000000"),
        (-4, "-0.000000001"),
        (7, "0.000000001"),
        (8, "0.000000001"),
        (11, "0.000000001"),
        (12, "0.000000002"),
        (7_500_000_000, "1.000000000"),
        (-7_500_000_000, "-1.000000000"),
        (7_499_999_996, "0.999999999"),
        (7_499_999_997, "1.000000000"),
        (-3_375_000_000, "-0.450000000"),
        (75_000_000_000, "10.000000000"),
        (i128::from(i64::MAX), "1229782938.247303441"),
        (i128::from(i64::MIN), "-1229782938.247303441"),
    ];
    for (performance, text) in worked {
        assert_eq!(shown_as(performance), text, "{performance}");
    }
}

/// 2/15 of a whole number is never a half: its remainders are fifteenths, and 15 is odd.
#[test]
fn the_nearest_is_the_only_one() {
    for performance in -1_000..=1_000_i128 {
        let shown = billionths(performance);
        let away = |number: i128| (2 * performance - 15 * number).abs();
        assert!(away(shown) < away(shown + 1) && away(shown) < away(shown - 1), "{performance}");
    }
}

/// Every number of billionths in the range is reached, by the performance that is nearest to 15/2
/// of it.
#[test]
fn every_number_of_billionths_is_written_and_read() {
    let mut chance = Chance::new(11);
    let drawn = (0..5_000).map(|_| chance.between(-MOST_BILLIONTHS, MOST_BILLIONTHS)).collect::<Vec<_>>();
    let edges = [0, 1, -1, 999_999_999, -1_000_000_000, MOST_BILLIONTHS, -MOST_BILLIONTHS];
    for number in drawn.into_iter().chain(edges).chain(-50..=50) {
        let performance = nearest(15 * number, 2).clamp(i64::MIN.into(), i64::MAX.into());
        assert_eq!(billionths(performance), number);
        assert_eq!(billionths_in(&in_megawatt_hertz(number)), Some(number));
    }
    assert_eq!(billionths_in(&in_megawatt_hertz(MOST_BILLIONTHS + 1)), None);
    assert_eq!(billionths_in(&in_megawatt_hertz(-MOST_BILLIONTHS - 1)), None);
    assert_eq!(billionths(i64::MAX.into()), MOST_BILLIONTHS);
    assert_eq!(billionths(i64::MIN.into()), -MOST_BILLIONTHS);
}

#[test]
fn read_after_write_gives_what_went_in() {
    let mut chance = Chance::new(12);
    for _ in 0..3_000 {
        let call = draw_row(&mut chance);
        let text = row_reply(&call, LONGEST_ROW).expect("a row");
        assert!((SHORTEST_ROW..=LONGEST_ROW).contains(&text.len()));
        let RowCall { interval, residual, number, raise, raise_type, lower, lower_type, version } = call;
        let expected = [
            interval,
            residual,
            number,
            billionths(raise),
            raise_type,
            billionths(lower),
            lower_type,
            version,
        ];
        assert_eq!(read_reply(text.as_bytes(), ROW_NUMBERS), Ok(expected));
    }
}

/// What is read is what the writer makes of it: so 18 is given for nothing that is written, and for
/// all else.
#[test]
fn a_changed_row_is_read_only_where_it_is_a_row_again() {
    let mut met = BTreeSet::new();
    for (way, bytes) in changed_rows(40_000, 5) {
        let read = read_row(&bytes);
        met.insert((way, read.map_or_else(|refusal| refusal.t, |_| 0)));
        let Ok(read) = read else {
            continue;
        };
        let performance = |number: i128| nearest(15 * number, 2).clamp(i64::MIN.into(), i64::MAX.into());
        let row = Row {
            interval: read.interval,
            who: read.who,
            raise: Shown { performance: performance(read.raise), of_type: read.raise_type },
            lower: Shown { performance: performance(read.lower), of_type: read.lower_type },
            version: read.version,
        };
        assert_eq!(row_text(&row).map(String::into_bytes), Ok(bytes));
    }
    for way in Way::ALL {
        assert!((1..=COLUMNS).all(|column| met.contains(&(way, column))), "{way:?}");
    }
    assert!(met.contains(&(Way::Exchanged, 0)) && met.contains(&(Way::PutIn, 0)));
    assert!(!met.contains(&(Way::Cut, 0)));
}

#[test]
fn shortest_and_longest_row() {
    let shortest = Row {
        interval: 0,
        who: Who::Unit(0),
        raise: Shown { of_type: Type::Default, ..ZERO },
        lower: Shown { of_type: Type::Default, ..ZERO },
        version: 0,
    };
    let text = "01/01/2000 00:00:00,0,0.000000000,Default,0.000000000,Default,0\n";
    assert_eq!(row_reply(&call_of(&shortest), 64).as_deref(), Ok(text));
    assert_eq!(row_reply(&call_of(&shortest), 63), Err(Refusal::of(12)));
    let longest = longest_row();
    let text = "31/12/9999 23:55:00,Residual QLD1,-1229782938.247303441,Calculated,\
                -1229782938.247303441,Calculated,65535\n";
    assert_eq!((longest.len(), longest.as_slice()), (106, text.as_bytes()));
}

#[test]
fn a_row_from_numbers_refuses_11_then_15_then_12() {
    let fine = call_of(&unit_row(0, 1, 0, 0));
    let late = 841_518_720;
    let refused =
        |call: RowCall, bytes: usize| row_reply(&call, bytes).map_err(|refusal| refusal.to_string());
    let over = [
        RowCall { number: 65_536, ..fine },
        RowCall { residual: 1, number: 5, ..fine },
        RowCall { residual: 2, number: 0, ..fine },
        RowCall { raise_type: 2, ..fine },
        RowCall { lower_type: 2, ..fine },
        RowCall { version: 65_536, ..fine },
    ];
    for call in over {
        assert_eq!(refused(call, 106), Err("11 0 0".to_string()));
        assert_eq!(refused(RowCall { interval: late, ..call }, 0), Err("11 0 0".to_string()));
    }
    assert_eq!(refused(RowCall { interval: late, ..fine }, 0), Err("15 0 0".to_string()));
    assert_eq!(refused(RowCall { interval: late - 1, ..fine }, 0), Err("12 0 0".to_string()));
    assert!(refused(RowCall { number: 65_535, version: 65_535, ..fine }, 106).is_ok());
    assert!(refused(RowCall { residual: 1, number: 4, ..fine }, 106).is_ok());
}

fn with_column(column: usize, word: &str) -> Vec<u8> {
    let mut columns: Vec<&str> = ROW.splitn(COLUMNS, ',').collect();
    columns[column - 1] = word;
    columns.join(",").into_bytes()
}

#[test]
fn each_column_wrong_alone() {
    assert_eq!(wrong_column(ROW.as_bytes()), None);
    for column in 1..=COLUMNS {
        for word in wrong_words(column) {
            assert_eq!(wrong_column(&with_column(column, word)), Some(column), "{word:?}");
        }
    }
}

#[test]
fn words_that_are_right() {
    let right = [
        (1, "29/02/2400 23:55:00"),
        (1, "31/12/9999 23:55:00"),
        (2, "0"),
        (2, "65535"),
        (2, "Residual QLD1"),
        (2, "Residual TAS1"),
        (3, "0.000000000"),
        (3, "-0.000000001"),
        (3, "-1229782938.247303441"),
        (5, "1229782938.247303441"),
        (4, "Default"),
        (6, "Calculated"),
        (7, "0\n"),
        (7, "65535\n"),
    ];
    for (column, word) in right {
        assert_eq!(wrong_column(&with_column(column, word)), None, "{word}");
    }
}

#[test]
fn of_two_wrong_columns_the_first_is_told() {
    for first in 1..=COLUMNS {
        for second in first + 1..=COLUMNS {
            let mut columns: Vec<&str> = ROW.splitn(COLUMNS, ',').collect();
            columns[first - 1] = "x";
            columns[second - 1] = "x";
            assert_eq!(wrong_column(columns.join(",").as_bytes()), Some(first));
        }
    }
}

/// Cut after so many bytes: within a column it is that one, but where what is left of it is right
/// by itself it is the next, as with unit 1 of 12; behind its comma the next one is there and
/// empty.
#[test]
fn a_row_cut_at_every_byte() {
    let column_of = |length: usize| match length {
        0..=18 => 1,
        19..=20 => 2,
        21..=33 => 3,
        34..=44 => 4,
        45..=57 => 5,
        58..=65 => 6,
        _ => 7,
    };
    assert_eq!(ROW.len(), 70);
    for length in 0..ROW.len() {
        assert_eq!(wrong_column(&ROW.as_bytes()[..length]), Some(column_of(length)), "{length}");
    }
}

#[test]
fn a_line_feed_belongs_to_the_column_that_it_stands_in() {
    let stops: Vec<&str> = ROW.trim_end().splitn(COLUMNS, ',').collect();
    for columns in 1..COLUMNS {
        let row = stops[..columns].join(",");
        assert_eq!(wrong_column(row.as_bytes()), Some(columns + 1), "{row}");
        assert_eq!(wrong_column(format!("{row}\n").as_bytes()), Some(columns), "{row}");
    }
    assert_eq!(wrong_column(b""), Some(1));
    assert_eq!(wrong_column(b"\n"), Some(1));
    assert_eq!(wrong_column(b",,,,,,"), Some(1));
    assert_eq!(wrong_column(ROW.trim_end().as_bytes()), Some(7));
    assert_eq!(wrong_column(format!("{ROW}\n").as_bytes()), Some(7));
    assert_eq!(wrong_column(format!("{ROW}{ROW}").as_bytes()), Some(7));
    assert_eq!(wrong_column(format!("{},\n", ROW.trim_end()).as_bytes()), Some(7));
    assert_eq!(wrong_column(format!("{}\r\n", ROW.trim_end()).as_bytes()), Some(7));
    assert_eq!(wrong_column(format!(" {ROW}").as_bytes()), Some(1));
}

#[test]
fn reading_refuses_12_then_18() {
    for count in 0..8 {
        assert_eq!(read_reply(ROW.as_bytes(), count), Err(Refusal::of(12)));
        assert_eq!(read_reply(b"", count), Err(Refusal::of(12)));
    }
    assert_eq!(read_reply(ROW.as_bytes(), 8), Ok([7, 0, 12, 1_500_000_000, 0, -450_000_000, 1, 10]));
    assert_eq!(read_reply(b"", 8), Err(wrong(1)));
    let residual = ROW.replace(",12,", ",Residual SA1,");
    assert_eq!(read_reply(residual.as_bytes(), 9), Ok([7, 1, 3, 1_500_000_000, 0, -450_000_000, 1, 10]));
}

/// A row that is looked at by its first 107 bytes has no line feed there only if it is wrong, and
/// the first wrong column of these bytes is that of the whole row.
#[test]
fn the_first_107_bytes_tell_the_column() {
    let mut chance = Chance::new(13);
    let mut long = 0;
    for nth in 0..3_000 {
        let input = rows_trial(7, nth);
        for row in input.split_inclusive(|&byte| byte == b'\n') {
            let seen = &row[..row.len().min(LONGEST_ROW + 1)];
            if !seen.contains(&b'\n') {
                assert_eq!(wrong_column(seen), wrong_column(row));
                long += i32::from(row.len() > seen.len());
            }
        }
    }
    assert!(long > 300, "{long}");
    let longest = longest_row();
    for place in 0..longest.len() {
        for more in [1, 2, 50] {
            let byte = chance.pick(b"0,.Ca1 ");
            let row = [&longest[..place], &vec![byte; more], &longest[place..]].concat();
            assert_eq!(wrong_column(&row[..107.min(row.len())]), wrong_column(&row));
        }
    }
}

#[test]
fn a_book_without_units_has_five_rows() {
    let mut book = base_book();
    book.requirements.push(base_requirement(1, 2, Direction::Lower));
    let rows = rows_of(&book, 1);
    let who: Vec<Who> = rows.iter().map(|row| row.who).collect();
    assert_eq!(who, (0..REGIONS).map(Who::Residual).collect::<Vec<_>>());
}

/// A region with a need to raise alone: raise is live, lower stands on its payment default; the
/// used and unused defaults are never shown.
fn one_sided_book() -> Book {
    let mut book = listing_book();
    for (place, unit) in book.units.iter_mut().enumerate() {
        unit.defaults =
            [-11, -22, -33, -7_500_000_000, -55, -66].map(|default| default * (place as i128 + 1));
    }
    book.frequencies[0].defaults = [-1, -2, -3, -15_000_000_000, -5, -6];
    book.frequencies[1].defaults = [-30_000_000_000, -2, -3, -45_000_000_000, -5, -6];
    book
}

#[test]
fn each_direction_has_its_own_type_and_default() {
    let report = report_of(&one_sided_book(), 1).expect("a report");
    let rows: Vec<&str> = report.lines().map(|row| &row[20..]).collect();
    assert_eq!(rows[0], "1,1.500000000,Calculated,-1.000000000,Default,1");
    assert_eq!(rows[1], "2,-0.450000000,Calculated,-2.000000000,Default,1");
    assert_eq!(rows[2], "Residual QLD1,-1.050000000,Calculated,-2.000000000,Default,1");
    assert_eq!(rows[3], "Residual NSW1,-4.000000000,Default,-6.000000000,Default,1");
}

#[test]
fn a_bad_unit_shows_both_defaults() {
    let mut book = one_sided_book();
    book.units[0].good[74] = false;
    book.units[0].readings[74] = 0;
    let report = report_of(&book, 1).expect("a report");
    let rows: Vec<&str> = report.lines().map(|row| &row[20..]).collect();
    assert_eq!(rows[0], "1,-0.000000001,Default,-1.000000000,Default,1");
    // The residual is minus what is left: unit 2's.
    assert_eq!(rows[2], "Residual QLD1,0.450000000,Calculated,-2.000000000,Default,1");
}

/// Units 1 and 2 as a group: 1.5 - 0.45 by its primary's number; the residual is as before.
#[test]
fn a_group_is_one_row() {
    let mut book = listing_book();
    book.units.iter_mut().for_each(|unit| unit.group = 9);
    book.units[1].defaults = [0; 6];
    book.units.push(base_unit(40, 3));
    let report = report_of(&book, 3).expect("a report");
    let rows: Vec<&str> = report.lines().map(|row| &row[20..]).collect();
    assert_eq!(rows.len(), 7);
    assert_eq!(rows[0], "1,1.050000000,Calculated,0.000000000,Default,3");
    assert_eq!(rows[1], "40,0.000000000,Default,0.000000000,Default,3");
    assert_eq!(rows[2], "Residual QLD1,-1.050000000,Calculated,0.000000000,Default,3");
}

#[test]
fn a_refused_book_prints_its_refusal_alone() {
    let mut bytes = to_bytes(&listing_book());
    bytes[60..64].copy_from_slice(&841_518_720_u32.to_le_bytes());
    assert_eq!(report_printed(&bytes, 1), "refused 15 0 0\n");
    bytes.push(0);
    assert_eq!(report_printed(&bytes, 1), "refused 4 1 0\n");
    assert_eq!(report_printed(b"", 1), "refused 1 0 0\n");
    bytes.pop();
    bytes[60..64].copy_from_slice(&841_518_719_u32.to_le_bytes());
    assert!(report_printed(&bytes, 1).starts_with("31/12/9999 23:55:00,1,"));
}

#[test]
fn rows_are_told_up_to_the_first_refused_one() {
    let told = "7 unit 12 1500000000 Calculated -450000000 Default 10\n";
    assert_eq!(rows_printed(b""), "");
    assert_eq!(rows_printed(b"\n"), "refused 18 1 1\n");
    assert_eq!(rows_printed(ROW.as_bytes()), told);
    assert_eq!(rows_printed(format!("{ROW}{}{ROW}", ROW.replace("Default", "x")).as_bytes()), {
        format!("{told}refused 18 2 6\n")
    });
    assert_eq!(
        rows_printed(format!("{ROW}{ROW}{}", ROW.trim_end()).as_bytes()),
        format!("{told}{told}refused 18 3 7\n")
    );
    assert_eq!(rows_printed(format!("{ROW}\n").as_bytes()), format!("{told}refused 18 2 1\n"));
    assert_eq!(rows_printed(b"refused 15 0 0\n"), "refused 18 1 1\n");
}

#[test]
fn the_argument_is_a_version() {
    let version = |words: &[&str]| version_of(&words.iter().map(|word| word.to_string()).collect::<Vec<_>>());
    assert_eq!(version(&[]), Some(1));
    for word in right_arguments() {
        assert_eq!(version(&[word]), word.parse().ok());
    }
    for words in wrong_arguments() {
        assert_eq!(version(&words), None, "{words:?}");
    }
}

fn run(program: &str, words: &[&str], input: &[u8]) -> Output {
    let mut child = Command::new(program)
        .args(words)
        .stdin(Stdio::piped())
        .stdout(Stdio::piped())
        .stderr(Stdio::piped())
        .spawn()
        .expect("a program");
    // A program that reads nothing may be gone before all is written.
    let _ = child.stdin.take().expect("a pipe").write_all(input);
    child.wait_with_output().expect("an end")
}

#[test]
fn the_programs() {
    let (report, rows) = (env!("CARGO_BIN_EXE_report"), env!("CARGO_BIN_EXE_report_rows"));
    let bytes = to_bytes(&listing_book());
    let printed = run(report, &["2"], &bytes);
    assert_eq!(printed.stdout, report_printed(&bytes, 2).into_bytes());
    assert!(printed.stderr.is_empty());
    assert_eq!(run(report, &[], &bytes).stdout, report_printed(&bytes, 1).into_bytes());
    let refused = run(report, &["65536"], &bytes);
    assert!(refused.stdout.is_empty());
    assert_eq!(refused.stderr, format!("{WRONG_VERSION}\n").into_bytes());
    assert_eq!(run(rows, &[], &printed.stdout).stdout, rows_printed(&printed.stdout).into_bytes());
}

/// A book taken by the calls, with the lists as they are left.
fn taken(book: &Book) -> Lent {
    let mut doors = ReportDoors::default();
    let line = Line::Book(usize::MAX, to_bytes(book));
    assert_eq!(doors.answer(&line), "book 0 0 0");
    doors.lent
}

/// What the lists keep gives the rows that the whole book does.
#[test]
fn the_rows_of_a_taken_book_are_those_of_the_book() {
    for (place, (class, _)) in CLASSES.into_iter().enumerate() {
        for roster in [0, 1, 5, 13, 40] {
            let mut book = make(place as u64, class, Some(roster)).expect("a class");
            book.settings.interval %= LAST_INTERVAL + 1;
            let lent = taken(&book);
            let rows = rows_of(&book, 3);
            for (place, row) in rows.iter().enumerate() {
                assert_eq!(report_reply(&lent, place as i128, 3, 106), row_text(row), "{class} {place}");
            }
            for past in [rows.len() as i128, rows.len() as i128 + 1, i128::from(u32::MAX)] {
                assert_eq!(report_reply(&lent, past, 3, 106), Err(Refusal::of(11)));
            }
        }
    }
}

/// The number that a row of the paper's book is refused with once it is changed, 0 where it is
/// given.
fn refused_with(place: i128, version: i128, bytes: usize, changes: &[Change]) -> u8 {
    let mut lent = taken(&listing_book());
    for change in changes {
        match *change {
            Change::Lend(name, length) => lent.list_mut(name).lent = length,
            Change::Put(name, place, number) => lent.put(name, place, &[number]),
        }
    }
    report_reply(&lent, place, version, bytes).map_or_else(|refusal| refusal.number, |_| 0)
}

#[test]
fn a_row_of_a_taken_book_refuses_in_this_order() {
    use Change::{Lend, Put};
    // Two units and one requirement, interval 7; the late interval is both the tally's and the
    // figures'.
    let late: Vec<Change> = (0..REGIONS).map(|region| Put("figures", 10 * region, 841_518_720)).collect();
    let late = [&late[..], &[Put("tally", 7, 841_518_720)]].concat();
    let with = |more: &[Change]| [&late[..], more].concat();
    assert_eq!(refused_with(0, 1, 106, &[]), 0);
    assert_eq!(refused_with(0, 1, 10, &[]), 12);
    assert_eq!(refused_with(0, 1, 10, &late), 15);
    assert_eq!(refused_with(7, 1, 10, &late), 11);
    assert_eq!(refused_with(0, 1, 10, &with(&[Put("homes", 0, 11)])), 11);
    assert_eq!(refused_with(7, 1, 10, &with(&[Lend("figures", 49)])), 12);
    assert_eq!(refused_with(0, 65_536, 10, &with(&[Lend("figures", 49)])), 11);
    assert_eq!(refused_with(0, 65_536, 10, &with(&[Lend("tally", 7)])), 12);
    assert_eq!(refused_with(0, 1, 106, &[Put("tally", 2, 7)]), 11);
    assert_eq!(refused_with(0, 1, 106, &[Put("tally", 2, 8)]), 0);
    assert_eq!(refused_with(0, 1, 106, &[Put("figures", 40, 8)]), 11);
    for (name, length) in [("figures", 50), ("numbers", 2), ("homes", 2), ("rows", 16)] {
        assert_eq!(refused_with(0, 1, 106, &[Lend(name, length - 1)]), 12, "{name}");
        assert_eq!(refused_with(0, 1, 106, &[Lend(name, length + 1)]), 0, "{name}");
    }
}

/// A member's row reads its own home and row and the figures of its region; a residual's the
/// figures of its own region and all rows.
#[test]
fn a_row_reads_no_more_than_it_needs() {
    use Change::Put;
    let all = |change: Change| -> Vec<u8> {
        (0..7).map(|place| refused_with(place, 1, 106, std::slice::from_ref(&change))).collect()
    };
    let residuals = 11;
    assert_eq!(all(Put("homes", 0, 11)), [11, 0, residuals, 11, 11, 11, 11]);
    assert_eq!(all(Put("rows", 8, PERFORMANCE_LIMIT + 1)), [0, 11, 11, 11, 11, 11, 11]);
    assert_eq!(all(Put("rows", 8, -PERFORMANCE_LIMIT)), [0; 7]);
    assert_eq!(all(Put("rows", 15, 1)), [0, 11, 11, 11, 11, 11, 11]);
    assert_eq!(all(Put("figures", 1, GENERATION_LIMIT + 1)), [11, 11, 11, 0, 0, 0, 0]);
    assert_eq!(all(Put("figures", 3, 2)), [11, 11, 11, 0, 0, 0, 0]);
    assert_eq!(all(Put("figures", 49, RESIDUAL_DEFAULT_LOWEST - 1)), [0, 0, 0, 0, 0, 0, 11]);
    // The first row passed over: unit 2 is of two units, and a row less is there.
    assert_eq!(all(Put("homes", 0, 10)), [0, 0, 0, 0, 0, 0, 11]);
}

#[test]
fn lines_come_back_as_they_went() {
    for (_, line) in script(3_000, 4) {
        assert_eq!(line_in(&line_of(&line)), Some(line));
    }
    assert_eq!(escaped(b"a\\b\n\xff~"), "a\\5cb\\0a\\ff~");
    for line in ["", "row", "row 1 2", "read x y", "report 1 2", "report 1 2 3 lend nothing 1", "walk 1"] {
        assert_eq!(ReportDoors::default().answer_line(line), "bad line", "{line}");
    }
}

#[test]
fn answers_of_lines() {
    let mut doors = ReportDoors::default();
    let mut answer = |line: &str| doors.answer_line(line);
    let row = "01/01/2000 00:00:00,1,0.000000000,Default,0.000000000,Default,1\\0a";
    assert_eq!(answer("row 0 0 1 0 1 0 1 1 65"), format!("row 0 64 text {row}@!#$"));
    assert_eq!(answer("row 0 0 1 0 1 0 1 65536 1"), "row 11 0 text !#$&");
    let before: String = (7_777_777_777_i64..7_777_777_787).map(|number| format!(" {number}")).collect();
    assert_eq!(answer("read 7 x"), format!("read 12 0 0 numbers{before}"));
    let read = "0 0 1 0 1 0 1 1 7777777785 7777777786 7777777787";
    assert_eq!(answer(&format!("read 8 {row}")), format!("read 0 0 0 numbers {read}"));
    assert!(answer("read 8 ").starts_with("read 18 0 1 numbers 7777777777 7777777778"));
}

/// Every door with each of its refusals, every column, every edge of a text, and rows whose sign is
/// all that tells.
#[test]
fn the_script_reaches_what_it_has_to() {
    let mut met: BTreeMap<String, u64> = BTreeMap::new();
    let mut edges = BTreeSet::new();
    let mut doors = ReportDoors::default();
    for (_, line) in script(20_000, 2_026) {
        let answer = doors.answer(&line);
        let words: Vec<&str> = answer.split(' ').collect();
        let t = if words[0] == "read" { words[3] } else { "" };
        *met.entry(format!("{} {} {t}", words[0], words[1])).or_default() += 1;
        if let Line::Row(call, bytes) = line {
            let length = call.row_length().unwrap_or(0) as i128;
            edges.insert((bytes as i128 - length).clamp(-2, 2));
            *met.entry(format!("-0. {}", answer.contains(",-0."))).or_default() += 1;
        }
    }
    let columns = (1..=COLUMNS).map(|column| format!("read 18 {column}"));
    let others =
        ["row 0 ", "row 11 ", "row 12 ", "row 15 ", "read 0 0", "read 12 0", "report 0 ", "report 11 "];
    let more = ["report 12 ", "report 15 ", "-0. true"];
    let names = others.iter().chain(&more).map(|name| name.to_string()).chain(columns);
    for name in names {
        assert!(met.get(&name).is_some_and(|&count| count >= 100), "{name}: {met:?}");
    }
    assert_eq!(edges, BTreeSet::from([-2, -1, 0, 1, 2]));
}

/// The dates of a thousand years: the model gives each day the number that was counted, and the
/// date that was asked.
#[test]
fn dates_are_answered_with_each_other() {
    let mut out = Vec::new();
    write_dates(9_900, 9_999, &mut out).expect("room");
    let script = String::from_utf8(out).expect("words");
    let mut doors = ReportDoors::default();
    let lines: Vec<&str> = script.lines().collect();
    assert_eq!(lines.len(), 100 * 12 * 2 * 3 * 2 + 6);
    for pair in lines[..lines.len() - 6].chunks(2) {
        let [row, read] = [pair[0], pair[1]].map(|line| doors.answer_line(line));
        let date = &pair[1][7..26];
        let number = pair[0].split(' ').nth(1).expect("a number");
        assert!(row.starts_with(&format!("row 0 64 text {date},1,")), "{row}");
        assert!(read.starts_with(&format!("read 0 0 0 numbers {number} 0 1 ")), "{read}");
    }
    for pair in lines[lines.len() - 6..].chunks(2) {
        assert!(doors.answer_line(pair[0]).starts_with("row 15 0 text !#$"));
        assert!(doors.answer_line(pair[1]).starts_with("read 18 0 1 "));
    }
}

/// What the books of `compare` show: each of these tells a wrong reading of the request from the
/// right one.
#[test]
fn the_books_of_trials_tell_wrong_readings_apart() {
    let mut met: BTreeMap<&str, u64> = BTreeMap::new();
    for nth in (0..600).filter(|nth| nth % 4 != 3) {
        let trial = book_trial(2_026, nth);
        let book = second::book::read_book(&trial.bytes).expect("a made book");
        let rows = rows_of(&book, 1);
        let mut note = |what: &'static str, holds: bool| *met.entry(what).or_default() += u64::from(holds);
        note("past the year 9999", report_of(&book, 1) == Err(Refusal::of(15)));
        note("before it", report_of(&book, 1).is_ok());
        note("two types", rows.iter().any(|row| row.raise.of_type != row.lower.of_type));
        note("a group", grouped(&book.units).len() < book.units.len());
        note(
            "a region without units",
            (0..REGIONS).any(|region| book.units.iter().all(|unit| unit.region != region)),
        );
        let small = |shown: &Shown| (-999_999_999..0).contains(&billionths(shown.performance));
        note("a sign before 0.", rows.iter().any(|row| small(&row.raise) || small(&row.lower)));
        let rounded_up =
            |shown: &Shown| billionths(shown.performance).abs() > (2 * shown.performance / 15).abs();
        note(
            "nearest and not cut off",
            rows.iter().any(|row| rounded_up(&row.raise) || rounded_up(&row.lower)),
        );
        let defaults = book.units.iter().any(|unit| unit.defaults[0] != unit.defaults[1]);
        note("two sorts of defaults", defaults && rows.iter().any(|row| row.raise.of_type == Type::Default));
        note("no argument", trial.version.is_none());
    }
    for (what, count) in met {
        assert!(count >= 20, "{what}: {count}");
    }
}
