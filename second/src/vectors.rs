//! Outside vectors: figures that no one here made, turned into books whose listing
//! shows them, and compared to the published decimals. The data files under
//! tests/vectors name their source and their tolerance.

use std::fs;
use std::path::Path;

use crate::book::*;
use crate::quantities::*;
use crate::write::*;

/// The published rows of a data file, split at the tabs.
pub fn rows(dir: &Path, name: &str) -> Vec<Vec<String>> {
    let text = fs::read_to_string(dir.join(name)).expect("a data file of tests/vectors");
    text.lines()
        .filter(|line| !line.starts_with('#') && !line.is_empty())
        .map(|line| line.split('\t').map(str::to_string).collect())
        .collect()
}

/// A published decimal, such as -0.0011111 or -3.362E-05, times ten to the places.
pub fn decimal(text: &str, places: u32) -> i128 {
    let (mantissa, exponent) = text.split_once('E').unwrap_or((text, "0"));
    let (whole, fraction) = mantissa.split_once('.').unwrap_or((mantissa, ""));
    let digits: i128 = format!("{whole}{fraction}").parse().expect("a published number");
    let exponent: i32 = exponent.parse().expect("a published exponent");
    let shift = places as i32 + exponent - fraction.len() as i32;
    assert!(shift >= 0, "{text} has more than {places} decimals");
    digits * 10i128.pow(shift as u32)
}

/// A requirement of a listing, read back from its text.
pub struct Printed {
    pub rcr: i128,
    pub used_pool: i128,
    /// Payment performance and factor of each member, the residual last.
    pub members: Vec<(i128, i128)>,
}

/// Reads a listing back; a line that is none of the listing's is an error.
pub fn read_listing(text: &str) -> Result<Vec<Printed>, String> {
    let mut all: Vec<Printed> = Vec::new();
    for line in text.lines().skip(1) {
        let words: Vec<&str> = line.split(' ').collect();
        let number = |place: usize| -> Result<i128, String> {
            let word = words.get(place).ok_or_else(|| format!("short line: {line}"))?;
            word.parse().map_err(|_| format!("no number: {line}"))
        };
        match (words[0], all.last_mut()) {
            ("requirement", _) => {
                all.push(Printed { rcr: number(3)?, used_pool: number(5)?, members: Vec::new() })
            }
            ("unit", Some(printed)) => printed.members.push((number(3)?, number(4)?)),
            ("residual", Some(printed)) => printed.members.push((number(2)?, number(3)?)),
            _ => return Err(format!("not a listing: {line}")),
        }
    }
    Ok(all)
}

fn near(what: &str, ours: i128, published: i128, tolerance: i128) -> Result<(), String> {
    if (ours - published).abs() <= tolerance {
        Ok(())
    } else {
        Err(format!("{what}: {ours}, published {published}, tolerance {tolerance}"))
    }
}

/// A vector: the book that shows its figures, and the test of the listing it gives.
pub struct Vector {
    pub name: &'static str,
    pub book: Book,
    pub check: fn(&Path, &[Printed]) -> Result<(), String>,
}

/// A unit that deviates by one cMW at one point (t from 1), so that its raise and
/// lower performance are 75 times the measure there.
fn probe(number: i128, region: usize, t: usize) -> Unit {
    let mut unit = base_unit(number, region);
    unit.readings[t - 1] = 1;
    unit
}

/// The measure that a probe shows, from its two performances.
fn probed(raise: i128, lower: i128) -> Result<i128, String> {
    if raise % 75 == 0 && lower % 75 == 0 {
        Ok((raise + lower) / 75)
    } else {
        Err(format!("performances {raise} and {lower} are not 75 times a measure"))
    }
}

fn both_directions(region_set: u8) -> Vec<Requirement> {
    vec![base_requirement(1, region_set, Direction::Raise), base_requirement(2, region_set, Direction::Lower)]
}

/// Whether table 15's own columns, in Hz, say that a point is dropped: deviation and measure have one sign, and the
/// deviation is more than 0.015 either way.
fn published_as_dropped(row: &[String]) -> bool {
    let (away, measure) = (decimal(&row[1], 5), decimal(&row[3], 5));
    away.signum() * measure.signum() == 1 && away.abs() > 1_500
}

fn published_dropped_points(rows: &[Vec<String>]) -> Vec<usize> {
    (0..rows.len()).filter(|&point| published_as_dropped(&rows[point])).collect()
}

/// Source document 000, table 15: region SA1, one probe for each point. A dropped point shows nothing; its measure
/// is shown by the point after it, in a region of its own whose frequencies are bad from there on.
fn frequency_measure(dir: &Path) -> Vector {
    let rows = rows(dir, "frequency_measure.txt");
    let mut book = base_book();
    book.settings.smoothing = 2_222;
    book.settings.bad_frequency_limit = 75;
    let record = &mut book.frequencies[3];
    for (point, row) in rows.iter().enumerate() {
        record.frequencies[point] = FREQUENCY_NOMINAL + decimal(&row[1], 6);
    }
    record.good[0] = false;
    record.frequencies[0] = 0;
    let whole = record.clone();
    book.units = (1..=POINTS).map(|t| probe(t as i128, 3, t)).collect();
    let dropped = published_dropped_points(&rows);
    assert_eq!(dropped.len(), 3, "a region for each dropped point");
    for (region, point) in dropped.into_iter().enumerate() {
        book.frequencies[region] = FrequencyRecord { region, ..whole.clone() };
        book.frequencies[region].good[point + 1..].fill(false);
        book.frequencies[region].frequencies[point + 1..].fill(0);
        book.units.push(probe((POINTS + 1 + region) as i128, region, point + 2));
    }
    book.requirements = both_directions(0b01111);
    Vector { name: "frequency_measure", book, check: check_frequency_measure }
}

fn check_frequency_measure(dir: &Path, printed: &[Printed]) -> Result<(), String> {
    let rows = rows(dir, "frequency_measure.txt");
    let dropped = published_dropped_points(&rows);
    for (point, row) in rows.iter().enumerate() {
        let shown = |member: usize| probed(printed[0].members[member].0, printed[1].members[member].0);
        let measure = match dropped.iter().position(|&one| one == point) {
            Some(nth) => {
                near(&format!("{} is dropped", row[0]), shown(point)?, 0, 0)?;
                shown(POINTS + nth)?
            }
            None => shown(point)?,
        };
        near(&row[0], measure, decimal(&row[3], 6), 5)?;
        let longer = decimal(&row[4], 12) + decimal(&row[5], 12);
        near(&row[0], measure * 1_000_000, longer, 2_000_000)?;
    }
    Ok(())
}

const PUBLISHED_REGIONS: [&str; 5] = ["QLD1", "NSW1", "VIC1", "SA1", "TAS1"];

/// The published rows of a region in 004 table 4: the step before and the step.
fn steps_of(dir: &Path, region: usize) -> Vec<Vec<String>> {
    let all = rows(dir, "one_step_measure.txt");
    all.into_iter().filter(|row| row[1] == PUBLISHED_REGIONS[region]).collect()
}

/// Source document 004, table 4: one step in each region. All later points are bad and keep the measure, but for TAS1,
/// whose measure is too small to be reliable on its own and is therefore sent below -10,000 from the third point on.
/// A probe shows the step, another the bad point after it: TAS1's step is dropped, since its published frequency is
/// below the band while its measure is below 0.
fn one_step_measure(dir: &Path) -> Vector {
    let mut book = base_book();
    book.settings.smoothing = 2_222;
    book.settings.bad_frequency_limit = 75;
    for (region, name) in PUBLISHED_REGIONS.into_iter().enumerate() {
        let steps = steps_of(dir, region);
        let record = &mut book.frequencies[region];
        record.measure_before = decimal(&steps[0][3], 6);
        record.good = [false; POINTS];
        record.frequencies = [0; POINTS];
        if name == "TAS1" {
            record.good[2..].fill(true);
            record.frequencies[2..].fill(50_100_000);
        }
        record.good[0] = true;
        record.frequencies[0] = decimal(&steps[1][2], 6);
        for t in [1, 2] {
            book.units.push(probe((2 * region + t) as i128, region, t));
        }
    }
    book.requirements =
        vec![base_requirement(1, 0b01111, Direction::Raise), base_requirement(2, 0b10000, Direction::Lower)];
    Vector { name: "one_step_measure", book, check: check_one_step_measure }
}

fn check_one_step_measure(dir: &Path, printed: &[Printed]) -> Result<(), String> {
    for (region, name) in PUBLISHED_REGIONS.into_iter().enumerate() {
        let members = if name == "TAS1" { &printed[1].members } else { &printed[0].members[2 * region..] };
        let (step, after) = (probed(members[0].0, 0)?, probed(members[1].0, 0)?);
        let published = &steps_of(dir, region)[1];
        near(&published[1], after, decimal(&published[3], 6), 1)?;
        let shown = if name == "TAS1" { 0 } else { after };
        near(&format!("{name}, its step"), step, shown, 0)?;
    }
    Ok(())
}

/// The published points of the trajectory within the interval, as t and MW.
fn trajectory_points(dir: &Path) -> Vec<(usize, String)> {
    let all = rows(dir, "reference_trajectory.txt");
    let references: Vec<String> =
        all.iter().filter(|row| row[0] == "reference").map(|row| row[2].clone()).collect();
    references.into_iter().enumerate().skip(1).map(|(minute, mw)| (15 * minute, mw)).collect()
}

/// Source document 000, tables 4 and 5. The unit reads 0 at the published points, so
/// it deviates by all of the reference there. Region r has FM 20,000 at the published
/// point r and 1 at the others; t = 25 and 50, where the reference is a whole cMW that
/// the unit follows, fill up the seven points that reliability asks for.
fn reference_trajectory(dir: &Path) -> Vector {
    let mut book = base_book();
    let targets: Vec<i128> = rows(dir, "reference_trajectory.txt")
        .iter()
        .filter(|row| row[0] == "target")
        .map(|row| decimal(&row[2], 5) / 1_000)
        .collect();
    for region in 0..REGIONS {
        let mut unit = base_unit(region as i128, region);
        (unit.start, unit.end) = (targets[0], targets[1]);
        let record = &mut book.frequencies[region];
        for t in [25, 50] {
            unit.readings[t - 1] = unit.start + (unit.end - unit.start) * t as i128 / 75;
            record.frequencies[t - 1] -= 1;
        }
        for (place, (t, _)) in trajectory_points(dir).iter().enumerate() {
            record.frequencies[t - 1] -= if place == region { 20_000 } else { 1 };
        }
        book.units.push(unit);
    }
    book.requirements = vec![base_requirement(1, 31, Direction::Raise)];
    Vector { name: "reference_trajectory", book, check: check_reference_trajectory }
}

fn check_reference_trajectory(dir: &Path, printed: &[Printed]) -> Result<(), String> {
    for region in 0..REGIONS {
        let mut expected = 0;
        for (place, (_, mw)) in trajectory_points(dir).iter().enumerate() {
            let reference = decimal(mw, 3) * 7_500 / 1_000;
            expected -= reference * if place == region { 20_000 } else { 1 };
        }
        near("trajectory", printed[0].members[region].0, expected, 0)?;
    }
    Ok(())
}

/// One MWHz in the unit of performance.
const MWHZ: i128 = 7_500_000_000;

fn named_rows(dir: &Path, file: &str, name: &str) -> Vec<Vec<String>> {
    rows(dir, file).into_iter().filter(|row| row[0] == name).collect()
}

/// Source document 000, tables 6 to 9. Requirement 1 has the helpful units, live:
/// FM 20,000 at 50 points makes 10 MWHz of each 1,000 cMW. Requirement 2 has the
/// unhelpful ones on their defaults, with the published residuals of both regions.
fn contribution_factors(dir: &Path) -> Vector {
    let mut book = base_book();
    let region_of = |row: &[String]| if row[1] == "A" { 0 } else { 1 };
    for region in 0..4 {
        book.frequencies[region].frequencies[..50].fill(49_980_000);
    }
    for row in named_rows(dir, "contribution_factors.txt", "residual") {
        book.frequencies[2 + region_of(&row)].defaults[0] = decimal(&row[2], 0) * MWHZ;
    }
    for row in named_rows(dir, "contribution_factors.txt", "unit") {
        let number = book.units.len() as i128;
        let performance = decimal(&row[3], 0);
        let mut unit = base_unit(number, region_of(&row));
        if performance > 0 {
            unit.readings = [performance * 100; POINTS];
        } else {
            unit.region += 2;
            unit.good = [false; POINTS];
            unit.defaults[0] = performance * MWHZ;
        }
        book.units.push(unit);
    }
    book.requirements =
        vec![base_requirement(1, 0b0011, Direction::Raise), base_requirement(2, 0b1100, Direction::Raise)];
    Vector { name: "contribution_factors", book, check: check_contribution_factors }
}

fn check_contribution_factors(dir: &Path, printed: &[Printed]) -> Result<(), String> {
    let units = named_rows(dir, "contribution_factors.txt", "unit");
    let mut residual = named_rows(dir, "contribution_factors.txt", "joined").remove(0);
    residual.splice(1..1, ["both".to_string(), "residual".to_string()]);
    let sums = named_rows(dir, "contribution_factors.txt", "sums").remove(0);
    let helpful = |row: &&Vec<String>| decimal(&row[3], 0) > 0;
    let positive: Vec<&Vec<String>> = units.iter().filter(helpful).collect();
    let mut negative: Vec<&Vec<String>> = units.iter().filter(|row| !helpful(row)).collect();
    negative.push(&residual);
    for (rows, printed) in [(&positive, &printed[0]), (&negative, &printed[1])] {
        for (row, &(performance, factor)) in rows.iter().zip(&printed.members) {
            near(&row[2], performance, decimal(&row[3], 0) * MWHZ, 0)?;
            near(&row[2], factor, decimal(&row[4], 9), 0)?;
        }
    }
    let helped: i128 = printed[0].members.iter().map(|member| member.0.max(0)).sum();
    let hindered: i128 = printed[1].members.iter().map(|member| -member.0.min(0)).sum();
    near("positive sum", helped, decimal(&sums[1], 0) * MWHZ, 0)?;
    near("negative sum", hindered, decimal(&sums[2], 0) * MWHZ, 0)
}

/// Source document 000, tables 16 and 17: one unit for the positive deviations of
/// all units, one for the negative ones.
fn corrective_response(dir: &Path) -> Vector {
    let mut book = base_book();
    book.frequencies[0].generation = 1;
    book.units = vec![base_unit(1, 0), base_unit(2, 0)];
    for (point, row) in named_rows(dir, "corrective_response.txt", "point").iter().enumerate() {
        book.frequencies[0].frequencies[point] = FREQUENCY_NOMINAL - decimal(&row[7], 6);
        book.units[0].readings[point] = decimal(&row[2], 2);
        book.units[1].readings[point] = decimal(&row[3], 2);
    }
    book.requirements = both_directions(1);
    Vector { name: "corrective_response", book, check: check_corrective_response }
}

fn check_corrective_response(dir: &Path, printed: &[Printed]) -> Result<(), String> {
    let summary = named_rows(dir, "corrective_response.txt", "summary").remove(0);
    // Seven decimals of a MW; a 75th of a cMW is 10^5 / 75 of them.
    let half_cmw = 50_000;
    near("raise", printed[0].rcr * 100_000 / 75, decimal(&summary[1], 7), half_cmw)?;
    near("lower", printed[1].rcr * 100_000 / 75, decimal(&summary[2], 7), half_cmw)
}

/// Source document 000, table 10, and 004, table 8: one requirement for each row.
fn usage(dir: &Path) -> Vector {
    let mut book = base_book();
    book.frequencies[0].frequencies = [49_980_000; POINTS];
    for row in rows(dir, "usage.txt") {
        let number = book.requirements.len() as i128;
        let mut requirement = base_requirement(number, 1, Direction::Raise);
        requirement.enabled = nearest(decimal(&row[1], 4), 10);
        requirement.used = nearest(decimal(&row[2], 4), 10);
        requirement.cost = usage_cost(&row[3]);
        book.requirements.push(requirement);
    }
    Vector { name: "usage", book, check: check_usage }
}

/// Four decimals are published, in one row six.
fn usage_cost(usage: &str) -> i128 {
    if usage.len() > "0.0000".len() {
        1_000_000
    } else {
        10_000
    }
}

fn check_usage(dir: &Path, printed: &[Printed]) -> Result<(), String> {
    for (row, printed) in rows(dir, "usage.txt").iter().zip(printed) {
        let published = decimal(&row[3], 6) * usage_cost(&row[3]) / 1_000_000;
        near(&row[3], printed.used_pool, published, 0)?;
    }
    Ok(())
}

pub fn all(dir: &Path) -> Vec<Vector> {
    vec![
        frequency_measure(dir),
        one_step_measure(dir),
        reference_trajectory(dir),
        contribution_factors(dir),
        corrective_response(dir),
        usage(dir),
    ]
}

/// Tests what a program printed for a vector's book.
pub fn check_output(dir: &Path, vector: &Vector, output: &str) -> Result<(), String> {
    let printed = read_listing(output)?;
    if printed.len() != vector.book.requirements.len() {
        return Err(format!("{} requirements printed", printed.len()));
    }
    for (requirement, printed) in vector.book.requirements.iter().zip(&printed) {
        let units = vector.book.units.iter().filter(|unit| requirement.includes(unit.region)).count();
        if printed.members.len() != units + 1 {
            return Err(format!("{} members printed", printed.members.len()));
        }
    }
    (vector.check)(dir, &printed)
}
