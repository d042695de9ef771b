//! Books that cost the most, of any roster and any number of requirements: every member of every
//! requirement is live, every pool is above 0, and each requirement is over all five regions.

use crate::book::*;
use crate::chance::Chance;
use crate::quantities::*;
use crate::write::*;

/// `spread`: no two weights alike. `ties`: all weights of a share alike, so that every left-over is a tie. `hard`: defaults whose distances from a middle
/// one grow geometrically, under pools of half as many cents as there are members, so that a search among remainders meets distances of every size.
pub const SHAPES: [&str; 3] = ["spread", "ties", "hard"];

/// Frequency low for half of the interval, then high, so that both directions are reliable.
fn region(chance: &mut Chance, number: usize) -> FrequencyRecord {
    let mut record = base_frequency(number);
    record.generation = 100_000 + chance.between(0, 500_000);
    record.defaults = std::array::from_fn(|_| -chance.between(1, 1_000_000_000_000));
    record.frequencies = std::array::from_fn(|point| {
        let side = if point < POINTS / 2 { -1 } else { 1 };
        FREQUENCY_NOMINAL + side * chance.between(20_000, 90_000)
    });
    record
}

fn spread_unit(chance: &mut Chance, number: usize) -> Unit {
    let mut unit = base_unit(number as i128 + 1, number % REGIONS);
    unit.load = number % 3 == 2;
    unit.start = chance.between(-40_000, 40_000);
    unit.end = unit.start + chance.between(-5_000, 5_000);
    unit.defaults = std::array::from_fn(|_| -chance.between(1, 1_000_000_000_000));
    unit.readings = std::array::from_fn(|point| {
        unit.start + (unit.end - unit.start) * point as i128 / 75 + chance.between(-3_000, 3_000)
    });
    unit
}

/// Units of five, one a region, on the same side by the same step.
fn tied_unit(number: usize) -> Unit {
    let mut unit = base_unit(number as i128 + 1, number % REGIONS);
    let side = if (number / REGIONS).is_multiple_of(2) { 1 } else { -1 };
    unit.defaults = [-1_000; 6];
    unit.readings = [100 * side; POINTS];
    unit
}

fn hard_unit(chance: &mut Chance, number: usize, units: usize) -> Unit {
    let mut unit = spread_unit(chance, number);
    let apart = (1 << (number * 38 / units))
        + ((number * 38 % units) << (number * 38 / units)) as i128 / units as i128;
    let side = if number.is_multiple_of(2) { 1 } else { -1 };
    unit.defaults = [-(500_000_000_000 + side * apart); 6];
    unit
}

fn requirement(number: usize) -> Requirement {
    let mut requirement = base_requirement(number as i128 + 1, 31, Direction::BOTH[number % 2]);
    requirement.price = 1_234_567;
    requirement.cost = 98_765_432_101;
    requirement.enabled = 100_003;
    requirement.used = 33_331;
    requirement
}

/// None where there is no such shape.
pub fn book(shape: &str, units: usize, requirements: usize) -> Option<Book> {
    let mut chance = Chance::new(2026);
    let mut book = base_book();
    book.frequencies = (0..REGIONS).map(|number| region(&mut chance, number)).collect();
    match shape {
        "spread" => book.units = (0..units).map(|number| spread_unit(&mut chance, number)).collect(),
        "ties" => {
            // One series for all regions, or their units' performances would differ.
            let series = book.frequencies[0].frequencies;
            for record in &mut book.frequencies {
                record.frequencies = series;
                // The residual of all five holds what a unit holds.
                record.defaults = [-200; 6];
            }
            book.units = (0..units).map(tied_unit).collect();
        }
        "hard" => book.units = (0..units).map(|number| hard_unit(&mut chance, number, units)).collect(),
        _ => return None,
    }
    book.requirements = (0..requirements).map(requirement).collect();
    if shape == "hard" {
        for requirement in &mut book.requirements {
            requirement.cost = units as i128;
            requirement.used = requirement.enabled / 2;
        }
    }
    Some(book)
}
