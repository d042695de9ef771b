//! Small worked books whose figures can be checked by hand.

use crate::book::*;
use crate::quantities::*;
use crate::write::*;
use crate::{describe, listing, rules, table_15};

/// A worked book: its name, what it shows, the book, and the bytes that follow its last body.
pub struct Worked {
    pub name: &'static str,
    pub shows: &'static str,
    pub book: Book,
    pub behind: &'static [u8],
}

impl Worked {
    pub fn bytes(&self) -> Vec<u8> {
        [&to_bytes(&self.book), self.behind].concat()
    }

    /// The book in words, its dropped points with what they are left out of, and what the rule of the share before
    /// request R-9 would have listed otherwise.
    pub fn text(&self) -> String {
        let mut text = format!(
            "{}\n\n{}\n\n{}\n{}{}\n({} bytes)\n",
            self.name,
            self.shows,
            describe::BASE,
            describe::describe(&self.book),
            describe::behind(self.behind),
            self.bytes().len()
        );
        let dropped = rules::dropped_in_words(&self.book);
        if !dropped.is_empty() {
            text.push_str("\nDropped points, and performances over the kept ones (request R-3):\n");
            text.push_str(&dropped);
        }
        let before = rules::in_words(&self.book);
        let refused = listing::settle(&self.bytes()).starts_with("refused");
        if !before.is_empty() && !refused {
            text.push_str(
                "\nBefore request R-9 equal remainders went to the earlier member, whatever the weights:\n",
            );
            text.push_str(&before);
        }
        text
    }
}

fn along(value: impl Fn(i128) -> i128) -> [i128; POINTS] {
    let mut all = [0; POINTS];
    for (point, place) in all.iter_mut().enumerate() {
        *place = value(point as i128 + 1);
    }
    all
}

/// A unit that holds `start` to `end` while its readings follow a formula.
fn unit(
    number: i128,
    region: usize,
    load: bool,
    start: i128,
    end: i128,
    reading: impl Fn(i128) -> i128,
) -> Unit {
    let mut unit = base_unit(number, region);
    unit.load = load;
    unit.start = start;
    unit.end = end;
    unit.readings = along(reading);
    unit
}

fn with_defaults(mut unit: Unit, defaults: [i128; 6]) -> Unit {
    unit.defaults = defaults;
    unit
}

/// Makes the points from first to last (t from 1) bad, with value 0.
fn spoil(good: &mut [bool; POINTS], values: &mut [i128; POINTS], first: usize, last: usize) {
    for point in first - 1..last {
        good[point] = false;
        values[point] = 0;
    }
}

/// A region in which these points alone are good: between them FM keeps its value.
fn good_only_at(book: &mut Book, region: usize, points: &[(usize, i128)]) {
    let record = &mut book.frequencies[region];
    spoil(&mut record.good, &mut record.frequencies, 1, POINTS);
    for &(t, frequency) in points {
        record.good[t - 1] = true;
        record.frequencies[t - 1] = frequency;
    }
}

fn with_bad_readings(mut unit: Unit, first: usize, last: usize) -> Unit {
    spoil(&mut unit.good, &mut unit.readings, first, last);
    unit
}

/// A requirement of one region.
fn regional(
    region: usize,
    number: i128,
    direction: Direction,
    price: i128,
    cost: i128,
    enabled: i128,
    used: i128,
) -> Requirement {
    requirement(number, 1 << region, direction, price, cost, enabled, used)
}

fn requirement(
    number: i128,
    region_set: u8,
    direction: Direction,
    price: i128,
    cost: i128,
    enabled: i128,
    used: i128,
) -> Requirement {
    Requirement { number, region_set, direction, price, cost, enabled, used }
}

/// The book of document 01's listing.
pub fn listing_book() -> Book {
    let mut book = base_book();
    book.frequencies[0].generation = 100_000;
    book.frequencies[0].frequencies = along(|_| 49_980_000);
    book.frequencies[0].defaults = [0, 0, -1_000, 0, 0, 0];
    book.units = vec![
        with_defaults(unit(1, 0, false, 10_000, 10_000, |_| 10_100), [0, 0, -1_000, 0, 0, 0]),
        with_defaults(unit(2, 0, true, 5_000, 5_000, |_| 5_030), [0, 0, -1_000, 0, 0, 0]),
    ];
    book.requirements = vec![regional(0, 1, Direction::Raise, 1_200, 1_000, 1_000, 333)];
    book
}

fn lower_two_regions() -> Book {
    let mut book = base_book();
    book.settings.interval = 101;
    book.settings.bad_frequency_limit = 74;
    book.frequencies[1].generation = 300_000;
    good_only_at(&mut book, 1, &[(1, 50_020_000)]);
    book.frequencies[1].defaults = [-500, -50, -5, -400, -40, -4];
    book.frequencies[2].generation = 100_000;
    good_only_at(&mut book, 2, &[(1, 50_030_000)]);
    book.frequencies[2].defaults = [-300, -30, -3, -200, -20, -2];
    book.units = vec![
        with_defaults(unit(1, 1, false, 10_000, 10_000, |_| 9_900), [-100, -200, -300, -400, -500, -600]),
        with_defaults(unit(2, 2, true, 5_000, 5_000, |_| 5_040), [-10, -20, -30, -40, -50, -60]),
        with_defaults(unit(3, 2, false, 2_000, 2_000, |_| 2_010), [-1, -2, -3, -4, -5, -6]),
        with_defaults(unit(4, 1, true, 8_000, 8_000, |_| 7_970), [0, 0, 0, -7, -8, -9]),
    ];
    book.requirements = vec![
        requirement(3, 0b00110, Direction::Lower, 3_000, 5_000, 2_000, 1_250),
        requirement(4, 0b00010, Direction::Lower, 1_199, 777, 1_000, 500),
        requirement(9, 0b00110, Direction::Raise, 3_000, 1_000, 2_000, 2_000),
    ];
    book
}

fn default_reasons() -> Book {
    let mut book = base_book();
    book.settings.bad_unit_percent = 66;
    book.settings.interval = 102;
    book.settings.bad_frequency_limit = 74;
    for region in 0..REGIONS {
        book.frequencies[region].generation = 100_000;
        good_only_at(&mut book, region, &[(1, 49_980_000)]);
        let step = region as i128 + 1;
        book.frequencies[region].defaults = [-1_000 * step, -2_000 * step, -3_000 * step, 0, 0, 0];
    }
    book.frequencies[1].separation = true;
    good_only_at(&mut book, 4, &[(1, 49_990_000)]);
    book.units = vec![
        with_defaults(unit(10, 0, false, 1_000, 1_000, |_| 1_010), [-11, -12, -13, 0, 0, 0]),
        with_bad_readings(
            with_defaults(
                unit(20, 0, false, 1_000, 1_000, |_| 3_000),
                [-75_000_000, -375_000_000, -23, 0, 0, 0],
            ),
            75,
            75,
        ),
        with_defaults(unit(30, 1, true, 1_000, 1_000, |_| 900), [-31, -32, -33, 0, 0, 0]),
        with_bad_readings(
            with_defaults(unit(40, 2, true, 1_000, 1_000, |_| 900), [-41, -42, -43, 0, 0, 0]),
            1,
            75,
        ),
    ];
    book.requirements = vec![
        requirement(1, 0b01001, Direction::Raise, 9_000, 1_000, 400, 100),
        requirement(2, 0b00101, Direction::Raise, 9_000, 1_000, 400, 100),
        requirement(3, 0b11111, Direction::Raise, 9_000, 1_000, 400, 100),
    ];
    book
}

fn bad_frequency_points() -> Book {
    let mut book = base_book();
    book.settings.smoothing = 5_000;
    book.settings.interval = 103;
    for region in [0, 3] {
        book.frequencies[region].measure_before = -20_000;
        book.frequencies[region].generation = 100_000;
        book.frequencies[region].frequencies = along(|_| 49_960_000);
        book.frequencies[region].defaults = [-7, -8, -9, 0, 0, 0];
    }
    let limit = &mut book.frequencies[0];
    spoil(&mut limit.good, &mut limit.frequencies, 3, 12);
    let over = &mut book.frequencies[3];
    spoil(&mut over.good, &mut over.frequencies, 3, 13);
    book.units = vec![
        with_defaults(unit(1, 0, false, 0, 0, |_| 1), [-1, -1, -1, 0, 0, 0]),
        with_defaults(unit(2, 3, false, 0, 0, |_| 1), [-2, -2, -2, 0, 0, 0]),
        with_defaults(unit(3, 0, true, 0, 0, |_| 2), [-3, -3, -3, 0, 0, 0]),
    ];
    book.requirements = vec![
        regional(0, 1, Direction::Raise, 10_000_000, 100, 3, 1),
        regional(3, 2, Direction::Raise, 10_000_000, 100, 3, 1),
    ];
    book
}

fn sign_turned() -> Book {
    let mut book = base_book();
    book.settings.interval = 104;
    book.settings.bad_frequency_limit = 74;
    book.frequencies[0].generation = 100_000;
    good_only_at(&mut book, 0, &[(1, 49_980_000), (61, 50_020_000)]);
    book.frequencies[1].generation = 200_000;
    good_only_at(&mut book, 1, &[(1, 49_985_000), (11, 50_030_000), (75, 49_990_000)]);
    good_only_at(&mut book, 2, &[(1, 49_980_000)]);
    book.units = vec![
        unit(1, 0, false, 0, 0, |t| 10 * t),
        unit(2, 1, false, 500, 500, |_| 400),
        unit(3, 1, true, 0, 0, |_| 5),
        unit(4, 2, false, 0, 0, |_| 10),
    ];
    book.requirements = vec![
        requirement(1, 0b00011, Direction::Raise, 1_800, 999, 600, 900),
        requirement(2, 0b00001, Direction::Raise, 1_800, 999, 600, 600),
        requirement(3, 0b00011, Direction::Lower, 1_800, 999, 600, 0),
        requirement(4, 0b00100, Direction::Raise, 1_800, 0, 600, 0),
    ];
    book
}

fn unplaced() -> Book {
    let mut book = base_book();
    book.settings.interval = 105;
    book.settings.bad_frequency_limit = 74;
    book.settings.bad_unit_percent = 100;
    for region in [0, 2] {
        book.frequencies[region].generation = 1;
        good_only_at(&mut book, region, &[(1, 49_980_000)]);
    }
    book.units = vec![
        unit(1, 0, false, 0, 75, |t| t),
        unit(2, 0, true, 75, 0, |t| 75 - t),
        with_bad_readings(with_defaults(unit(3, 2, false, 0, 0, |_| 0), [-5, 0, -7, 0, 0, 0]), 1, 1),
    ];
    book.requirements = vec![
        regional(0, 1, Direction::Raise, 5_000, 1_001, 2, 1),
        regional(0, 2, Direction::Raise, 5_000, 1_001, 0, 1),
        regional(2, 3, Direction::Raise, 5_000, 1_001, 2, 1),
    ];
    book
}

fn ramp() -> Book {
    let mut book = base_book();
    book.settings.interval = 106;
    book.frequencies[4].generation = 5_000;
    book.frequencies[4].frequencies = along(|t| 49_970_000 + 800 * t);
    book.units = vec![
        unit(1, 4, false, 0, 100, |_| 0),
        unit(2, 4, true, 1_000, 900, |_| 950),
        unit(65_535, 4, false, -100, 100, |t| 2 * t - 50),
    ];
    book.requirements = vec![
        regional(4, 1, Direction::Raise, 900, 10, 3, 2),
        regional(4, 2, Direction::Lower, 900, 10, 3, 2),
    ];
    book
}

fn ties() -> Book {
    let mut book = base_book();
    book.settings.interval = 107;
    book.settings.bad_frequency_limit = 74;
    book.frequencies[0].generation = 1;
    good_only_at(&mut book, 0, &[(1, 49_980_000)]);
    book.frequencies[0].defaults = [0, 0, -1, 0, 0, 0];
    let equal = [0, 0, -1, 0, 0, 0];
    book.units = vec![
        with_defaults(unit(1, 0, false, 0, 0, |_| -1), equal),
        with_defaults(unit(2, 0, false, 0, 0, |_| -1), equal),
        unit(3, 0, false, 0, 0, |_| 0),
        with_defaults(unit(4, 0, true, 0, 0, |_| 1), equal),
        with_defaults(unit(5, 0, true, 0, 0, |_| -3), equal),
    ];
    book.requirements = vec![regional(0, 6, Direction::Raise, 4_000, 14, 14, 2)];
    book
}

fn no_units() -> Book {
    let mut book = base_book();
    book.settings.interval = 0;
    book.settings.bad_frequency_limit = 74;
    for region in [1, 2] {
        book.frequencies[region].generation = 10;
        good_only_at(&mut book, region, &[(1, 50_011_000)]);
        book.frequencies[region].defaults = [0, 0, 0, -9, -9, -2];
    }
    good_only_at(&mut book, 0, &[(1, 50_000_000)]);
    book.requirements = vec![
        requirement(0, 0b00110, Direction::Lower, 100, 50, 10, 4),
        requirement(1, 0b00111, Direction::Lower, 100, 50, 10, 4),
    ];
    book
}

fn one_side() -> Book {
    let mut book = base_book();
    book.settings.interval = 108;
    book.settings.bad_frequency_limit = 74;
    book.settings.bad_unit_percent = 100;
    book.frequencies[0].generation = 1;
    good_only_at(&mut book, 0, &[(1, 49_980_000), (8, 50_020_000)]);
    for region in [1, 2] {
        book.frequencies[region].generation = 10;
        good_only_at(&mut book, region, &[(1, 49_980_000)]);
        book.frequencies[region].defaults = [-20, -30, 0, 0, 0, 0];
    }
    book.frequencies[3].generation = 1;
    good_only_at(&mut book, 3, &[(1, 50_020_000), (8, 49_980_000)]);
    book.frequencies[4].generation = 10;
    good_only_at(&mut book, 4, &[(1, 50_020_000)]);
    book.frequencies[4].defaults = [0, 0, 0, -20, -30, 0];
    book.units = vec![
        unit(1, 0, false, 0, 0, |t| if t <= 7 { 0 } else { 100 }),
        with_bad_readings(with_defaults(unit(2, 1, false, 0, 0, |_| 50), [-5, -10, -1, 0, 0, 0]), 8, 8),
        unit(3, 3, false, 0, 0, |t| if t <= 7 { 0 } else { -100 }),
        with_bad_readings(with_defaults(unit(4, 4, false, 0, 0, |_| 50), [0, 0, 0, -5, -10, -1]), 8, 8),
    ];
    book.requirements = vec![
        requirement(1, 0b00011, Direction::Raise, 1_200, 100, 4, 1),
        requirement(2, 0b00101, Direction::Raise, 1_200, 100, 4, 1),
        requirement(3, 0b00001, Direction::Raise, 1_200, 100, 1, 1),
        requirement(4, 0b00001, Direction::Lower, 1_200, 100, 4, 1),
        requirement(5, 0b11000, Direction::Lower, 1_200, 100, 4, 1),
        requirement(6, 0b01000, Direction::Lower, 1_200, 100, 1, 1),
    ];
    book
}

fn lower_defaults() -> Book {
    let mut book = base_book();
    book.settings.interval = 109;
    book.settings.bad_frequency_limit = 74;
    book.settings.bad_unit_percent = 50;
    for region in 0..REGIONS {
        let step = -100 * (region as i128 + 1);
        book.frequencies[region].generation = 100;
        book.frequencies[region].defaults = [step - 1, step - 2, step - 3, step - 4, step - 5, step - 6];
        good_only_at(&mut book, region, &[(1, 50_020_000)]);
    }
    book.frequencies[1].separation = true;
    good_only_at(&mut book, 2, &[]);
    book.frequencies[2].measure_before = -20_000;
    good_only_at(&mut book, 3, &[(75, 50_030_000)]);
    book.frequencies[3].measure_before = -30_000;
    book.frequencies[3].defaults = [-401, -402, -403, -3_400_000_000, -5_600_000_000, -406];
    good_only_at(&mut book, 4, &[(1, 50_010_000)]);
    book.units = vec![
        with_defaults(unit(1, 0, false, 1_000, 1_000, |_| 900), [-11, -12, -13, -14, -15, -16]),
        with_bad_readings(
            with_defaults(
                unit(2, 0, true, 2_000, 2_000, |_| 2_500),
                [-21, -22, -23, -4_000_000_000, -7_000_000_000, -26],
            ),
            40,
            40,
        ),
        with_bad_readings(
            with_defaults(
                unit(3, 3, false, 0, 0, |_| 0),
                [-31, -32, -33, -1_000_000_000, -3_000_000_000, -36],
            ),
            1,
            75,
        ),
        with_defaults(unit(4, 1, false, 1_000, 1_000, |_| 900), [-41, -42, -43, -44, -45, -46]),
    ];
    book.requirements = vec![
        requirement(1, 0b00001, Direction::Lower, 3_000, 5_000, 2_000, 1_000),
        requirement(2, 0b01001, Direction::Lower, 3_000, 5_000, 2_000, 1_000),
        requirement(3, 0b00010, Direction::Lower, 3_000, 5_000, 2_000, 1_000),
        requirement(4, 0b00100, Direction::Lower, 3_000, 5_000, 2_000, 1_000),
        requirement(5, 0b10000, Direction::Lower, 3_000, 5_000, 2_000, 1_000),
    ];
    book
}

fn edges_of_reliability() -> Book {
    let mut book = base_book();
    book.settings.interval = 110;
    book.settings.bad_frequency_limit = 72;
    for region in 0..REGIONS {
        let step = -10 * (region as i128 + 1);
        book.frequencies[region].defaults = [step - 1, step - 2, step - 3, step - 4, step - 5, step - 6];
    }
    good_only_at(&mut book, 0, &[(1, 50_010_001), (2, 50_000_000), (70, 50_000_001)]);
    good_only_at(&mut book, 1, &[(1, 50_010_001), (2, 50_000_000), (71, 50_000_001)]);
    good_only_at(&mut book, 2, &[(1, 50_010_000), (2, 50_010_000), (75, 49_989_999)]);
    good_only_at(&mut book, 3, &[(1, 50_000_000), (69, 49_999_999), (75, 49_989_999)]);
    good_only_at(&mut book, 4, &[(1, 50_000_001), (70, 49_999_999), (75, 49_989_999)]);
    book.frequencies[0].generation = 1;
    book.frequencies[3].generation = 1;
    book.units =
        vec![unit(1, 0, false, 0, 0, |t| if t <= 69 { -t } else { -7 }), unit(2, 3, false, 0, 0, |t| 76 - t)];
    book.requirements = (0..REGIONS)
        .map(|region| {
            let direction = if region < 3 { Direction::Lower } else { Direction::Raise };
            regional(region, region as i128, direction, 0, 50, 10, 4)
        })
        .collect();
    book
}

fn every_field() -> Book {
    let mut book = base_book();
    book.settings =
        Settings { smoothing: 4_321, bad_frequency_limit: 72, bad_unit_percent: 33, interval: 67_305_985 };
    for region in 0..REGIONS {
        let step = region as i128 + 1;
        let sign = if region % 2 == 0 { -1 } else { 1 };
        let record = &mut book.frequencies[region];
        record.measure_before = -sign * 11_111 * step;
        record.generation = 111_112 * step - 1;
        record.defaults = [1, 2, 3, 4, 5, 6].map(|place| -1_010_203_040_506 * step - place);
        let away = |t: usize| 50_000_000 + sign * (20_000 + 1_001 * step + 13 * t as i128);
        let points = [region + 1, region + 10, 75 - region].map(|t| (t, away(t)));
        good_only_at(&mut book, region, &points);
    }
    book.frequencies[4].separation = true;
    book.units = vec![
        with_bad_readings(
            with_defaults(
                unit(258, 3, true, 70_000, -60_000, |t| 1_000 - 13 * t),
                [1, 2, 3, 4, 5, 6].map(|place| -2_020_304_050_607 - place),
            ),
            9,
            9,
        ),
        with_defaults(
            unit(772, 2, false, -1_234, 5_678, |t| 100 * t - 3_000),
            [1, 2, 3, 4, 5, 6].map(|place| -3_030_405_060_708 - place),
        ),
    ];
    book.requirements = vec![
        requirement(513, 0b00101, Direction::Raise, 66_051, 4_328_719_365, 658_188, 526_086),
        requirement(1_027, 0b01010, Direction::Lower, 9_876_543, 987_654_321_012, 1_234_567, 1_999_999),
    ];
    book
}

fn thirteen_units() -> Book {
    let mut book = base_book();
    book.settings.bad_unit_percent = 25;
    book.settings.interval = 4_000_000_013;
    let regions = [
        (100_000, along(|t| if t <= 40 { 49_980_000 } else { 50_030_000 })),
        (80_000, along(|_| 49_975_000)),
        (30_000, along(|t| if t <= 50 { 49_985_000 } else { 50_015_000 })),
        (20_000, along(|_| 49_988_000)),
        (10_000, along(|t| if t <= 30 { 49_970_000 } else { 50_012_000 })),
    ];
    for (record, (generation, frequencies)) in book.frequencies.iter_mut().zip(regions) {
        record.generation = generation;
        record.frequencies = frequencies;
    }
    book.frequencies[0].defaults = [-10, -20, -300, -40, -50, -600];
    book.frequencies[1].separation = true;
    book.frequencies[1].defaults = [-7_000_000, -9_000_000, -500, -6_000_000, -8_000_000, -400];
    book.frequencies[2].defaults = [-100_000, -200_000, -30, -400_000, -500_000, -60];
    book.frequencies[3].defaults = [-11, -12, -13, -14, -15, -16];
    book.units = vec![
        unit(2, 4, false, 0, 75, |t| t),
        with_defaults(
            unit(5, 0, false, 10_000, 10_000, |t| if t <= 40 { 10_100 } else { 9_950 }),
            [-1, -2, -100, -4, -5, -900],
        ),
        with_defaults(unit(9, 1, true, 500, 500, |_| 470), [-31, -32, -330, -34, -35, -360]),
        with_defaults(unit(16, 0, true, 5_000, 5_000, |_| 5_030), [0, 0, -200, 0, 0, -800]),
        with_bad_readings(
            with_defaults(
                unit(77, 2, false, 800, 800, |_| 810),
                [-600_000, -700_000, -80, -900_000, -1_000_000, -110],
            ),
            75,
            75,
        ),
        with_defaults(unit(255, 0, false, 0, 150, |t| 2 * t + 7), [0, 0, -300, 0, 0, -700]),
        unit(256, 4, true, 75, 0, |t| 75 - t),
        with_defaults(unit(300, 1, false, 2_000, 2_000, |_| 2_040), [-41, -42, -430, -44, -45, -460]),
        with_bad_readings(
            with_defaults(
                unit(477, 0, false, 3_000, 3_000, |_| 3_050),
                [-150_000_000, -250_000_000, -400, -350_000_000, -450_000_000, -500],
            ),
            1,
            1,
        ),
        with_defaults(unit(512, 1, false, 100, 100, |_| 90), [-51, -52, -530, -54, -55, -560]),
        with_defaults(unit(1_000, 0, true, 300, 450, |t| 2 * t + 250), [0, 0, -500, 0, 0, -400]),
        with_defaults(unit(40_000, 0, false, -2_000, -2_000, |t| t - 2_030), [0, 0, -600, 0, 0, -300]),
        with_defaults(
            unit(65_535, 0, true, 900, 900, |t| if t <= 20 { 880 } else { 925 }),
            [0, 0, -700, 0, 0, -200],
        ),
    ];
    book.requirements = vec![
        requirement(7, 0b00001, Direction::Raise, 1_200, 10_007, 1_000, 333),
        requirement(8, 0b00101, Direction::Lower, 5_000, 3_001, 600, 250),
        requirement(300, 0b10000, Direction::Raise, 900, 1_001, 10, 3),
        requirement(301, 0b01010, Direction::Raise, 9_000, 500, 4, 1),
        requirement(9_999, 0b11111, Direction::Lower, 7_000, 4_099, 70, 50),
        requirement(60_000, 0b10001, Direction::Raise, 2_500, 777, 90, 40),
    ];
    book
}

/// Sizes of weights, drawn into a book by what one cMW off the trajectory comes to in each direction.
fn larger_first() -> Book {
    let mut book = base_book();
    book.settings.interval = 111;
    book.settings.bad_frequency_limit = 73;
    book.settings.bad_unit_percent = 50;
    book.frequencies[0].generation = 1;
    // FM 20,000 at 40 points, then -20,000 at 35.
    good_only_at(&mut book, 0, &[(1, 49_980_000), (41, 50_020_000)]);
    let raise = -75 * 40 * 20_000;
    let lower = -75 * 35 * 20_000;
    let unused = |raise: i128, lower: i128| [0, 0, -raise, 0, 0, -lower];
    let bad = |number: i128, defaults: [i128; 6]| {
        with_bad_readings(with_defaults(unit(number, 0, false, 0, 0, |_| 0), defaults), 75, 75)
    };
    book.units = vec![
        with_defaults(unit(1, 0, false, 0, 0, |_| 4), unused(1, 2)),
        with_defaults(unit(2, 0, false, 0, 0, |_| 1), unused(3, 5)),
        with_defaults(unit(3, 0, false, 0, 0, |_| 295), unused(1, 0)),
        with_defaults(unit(4, 0, false, 0, 0, |_| -2), unused(3, 8)),
        with_defaults(unit(5, 0, true, 0, 0, |_| 5), unused(5, 5)),
        bad(6, [199 * raise, 47 * raise, -3, 103 * lower, 40 * lower, -2]),
        bad(7, [101 * raise, 53 * raise, -5, 197 * lower, 20 * lower, 0]),
    ];
    book.frequencies[0].defaults = unused(3, 8);
    book.requirements = vec![
        regional(0, 1, Direction::Raise, 800, 500, 500, 200),
        regional(0, 2, Direction::Lower, 1_600, 200, 200, 120),
    ];
    book
}

/// A region all of whose points are good: these frequencies from t = 1 on, then 50 Hz.
fn good_from_the_first(book: &mut Book, region: usize, frequencies: &[i128]) {
    book.frequencies[region].frequencies[..frequencies.len()].copy_from_slice(frequencies);
}

/// Both sides of both edges of the band; a 1,000, so that FM outlives a frequency on its own side.
fn dropped_edges() -> Book {
    let mut book = base_book();
    book.settings.smoothing = 1_000;
    book.settings.interval = 112;
    let raise = [
        50_015_000, 50_015_001, 0, 0, 50_015_001, 49_984_999, 50_015_000, 49_985_000, 50_081_269, 49_800_000,
        50_180_009,
    ];
    let lower = [
        50_200_000, 49_985_000, 49_984_999, 0, 0, 49_984_999, 50_015_001, 49_985_000, 50_015_000, 49_918_731,
        50_200_000, 49_819_991,
    ];
    good_from_the_first(&mut book, 0, &[&raise[..], &lower].concat());
    let record = &mut book.frequencies[0];
    spoil(&mut record.good, &mut record.frequencies, 3, 4);
    spoil(&mut record.good, &mut record.frequencies, 15, 16);
    record.measure_before = 20_000;
    record.generation = 30_000;
    record.defaults = [0, 0, -5, 0, 0, -9];
    let agreeing = [&[49_800_000][..], &[49_980_000; 7], &[50_380_000], &[50_020_000; 7], &[49_820_000]];
    good_from_the_first(&mut book, 1, &agreeing.concat());
    book.frequencies[1].generation = 10_000;
    book.units = vec![
        with_defaults(unit(1, 0, false, 1_001, 1_013, |t| 1_041 - 6 * t), [0, 0, -3, 0, 0, -1]),
        with_defaults(unit(2, 0, true, 503, 491, |t| 497 + 2 * t), [0, 0, -1, 0, 0, -4]),
        with_defaults(unit(3, 1, false, -7, 5, |t| 2 * t - 21), [0, 0, -2, 0, 0, -2]),
    ];
    book.requirements = vec![
        requirement(1, 0b00011, Direction::Raise, 9_000, 1_001, 7, 3),
        requirement(2, 0b00011, Direction::Lower, 9_000, 1_001, 7, 5),
    ];
    book
}

/// Dropped points that reliability, RCR and the requirement's sign cannot do without.
fn dropped_reliability() -> Book {
    let mut book = base_book();
    book.settings.smoothing = 5_000;
    book.settings.interval = 113;
    let one = [
        &[49_984_999, 50_007_500][..],
        &[50_010_000; 8],
        &[49_900_000, 50_015_001, 49_995_000],
        &[49_990_000; 4],
        &[50_010_000],
    ];
    good_from_the_first(&mut book, 0, &one.concat());
    book.frequencies[0].measure_before = -40_001;
    book.frequencies[0].generation = 30_000;
    book.frequencies[0].defaults = [-50_000_000, -60_000_000, -1, -70_000_000, -80_000_000, -1];
    let other = [&[49_960_000][..], &[49_980_000; 9], &[50_060_000], &[50_020_000; 7], &[49_980_000]];
    good_from_the_first(&mut book, 1, &other.concat());
    book.frequencies[1].generation = 10_000;
    let reading = |t: i128| match t {
        1 => -91,
        12 => 77,
        2..=11 => -13,
        _ => 9,
    };
    book.units = vec![
        with_defaults(
            unit(1, 0, false, 0, 0, reading),
            [-10_000_000, -20_000_000, -1, -30_000_000, -40_000_000, -1],
        ),
        unit(2, 1, true, 0, 0, |_| 3),
    ];
    book.requirements = vec![
        requirement(1, 0b00011, Direction::Raise, 9_000, 1_001, 7, 3),
        requirement(2, 0b00011, Direction::Lower, 9_000, 1_001, 7, 5),
    ];
    book
}

/// The market's own frequencies and measures, with four units that no round number fits.
fn table_15() -> Book {
    let mut book = table_15::frequencies_book();
    book.settings.interval = 114;
    book.frequencies[3].generation = 123_457;
    book.frequencies[3].defaults = [0, 0, -7, 0, 0, -11];
    book.units = vec![
        with_defaults(unit(1, 3, false, 10_007, 10_133, |t| 9_973 + 3 * t), [0, 0, -13, 0, 0, -17]),
        with_defaults(unit(2, 3, true, 4_999, 4_871, |t| 5_021 - 2 * t), [0, 0, -19, 0, 0, -23]),
        with_defaults(unit(3, 3, false, 2_503, 2_503, |t| 2_659 - 4 * t), [0, 0, -29, 0, 0, -31]),
        with_defaults(unit(4, 3, true, -307, 211, |t| 7 * t - 341), [0, 0, -37, 0, 0, -41]),
    ];
    book.requirements = vec![
        regional(3, 1, Direction::Raise, 1_237, 10_007, 1_009, 337),
        regional(3, 2, Direction::Lower, 2_341, 10_009, 1_013, 719),
    ];
    book
}

/// The same book with a unit whose number is that of the unit before.
fn number_not_rising() -> Book {
    let mut book = thirteen_units();
    book.units[9].number = book.units[8].number;
    book
}

/// The same book with two readings of a unit out of range, and one of the next.
fn readings_out_of_range() -> Book {
    let mut book = thirteen_units();
    book.units[10].readings[8] = POWER_LIMIT + 1;
    book.units[10].readings[74] = -POWER_LIMIT - 1;
    book.units[11].readings[0] = POWER_LIMIT + 1;
    book
}

/// The unit in a group; all but the group's first hold no default.
fn in_group(group: i128, unit: Unit) -> Unit {
    Unit { group, ..unit }
}

/// Region 0 needs raise, at 20,000 throughout, and regions 1 and 2 too.
fn groups_base(interval: i128) -> Book {
    let mut book = base_book();
    book.settings.interval = interval;
    for region in 0..3 {
        book.frequencies[region].frequencies = [49_980_000; POINTS];
        book.frequencies[region].generation = 100_000;
        book.frequencies[region].defaults = [-7_000_000, -8_000_000, -500, 0, 0, 0];
    }
    book
}

fn groups_beside() -> Book {
    let mut book = groups_base(120);
    book.units = vec![
        with_defaults(in_group(3, unit(1, 0, false, 100, 100, |_| 131)), [0, 0, -700, 0, 0, 0]),
        in_group(3, unit(2, 0, true, 50, 50, |_| 81)),
        with_defaults(in_group(5, unit(4, 0, false, 10, 85, |t| 17 + t)), [0, 0, -300, 0, 0, 0]),
        in_group(5, unit(5, 0, true, 20, 20, |t| 20 + 2 * (t % 3))),
        in_group(5, unit(6, 0, false, 0, 0, |_| -9)),
        with_defaults(unit(9, 0, false, 0, 0, |_| -13), [0, 0, -110, 0, 0, 0]),
        with_defaults(in_group(4, unit(10, 1, false, 0, 0, |_| 5)), [0, 0, -90, 0, 0, 0]),
        in_group(4, unit(11, 1, false, 0, 0, |_| 6)),
    ];
    book.requirements = vec![
        requirement(1, 0b00001, Direction::Raise, 1_200, 1_001, 1_000, 333),
        requirement(2, 0b00011, Direction::Raise, 1_207, 1_003, 1_000, 777),
    ];
    book
}

fn groups_bad() -> Book {
    let mut book = groups_base(121);
    book.settings.bad_unit_percent = 50;
    let three = |region: usize, first: i128, bad: usize| {
        let mut units = vec![
            with_defaults(unit(first, region, false, 0, 0, |_| 30), [-1_000_000, -2_000_000, -40, 0, 0, 0]),
            unit(first + 1, region, true, 0, 0, |_| 11),
            unit(first + 2, region, false, 0, 0, |_| 7),
        ];
        units[bad] = with_bad_readings(units[bad].clone(), 8, 8);
        units.into_iter().map(move |unit| in_group(1 + region as i128, unit)).collect::<Vec<_>>()
    };
    book.units = three(0, 1, 0);
    book.units.push(with_defaults(unit(4, 0, false, 0, 0, |_| 13), [0, 0, -20, 0, 0, 0]));
    book.units.extend(three(1, 10, 1));
    book.units.extend(three(2, 20, 2));
    book.units.push(with_defaults(unit(30, 2, true, 0, 0, |_| 17), [0, 0, -30, 0, 0, 0]));
    book.requirements = vec![
        requirement(1, 0b00001, Direction::Raise, 9_000, 1_001, 1_000, 333),
        requirement(2, 0b00010, Direction::Raise, 9_000, 1_001, 1_000, 333),
        requirement(3, 0b00100, Direction::Raise, 9_000, 1_001, 1_000, 333),
        requirement(4, 0b00101, Direction::Raise, 9_000, 1_003, 1_000, 500),
        requirement(5, 0b00111, Direction::Raise, 9_000, 1_003, 1_000, 500),
    ];
    book
}

/// `groups_beside` with another group number, region or default at one unit.
fn groups_refused(change: fn(&mut [Unit])) -> Book {
    let mut book = groups_beside();
    change(&mut book.units);
    book
}

/// Half of the members may be bad, and of a region's points so many.
fn half_bad(bad_frequency_limit: i128, interval: i128) -> Book {
    let settings = Settings { bad_frequency_limit, bad_unit_percent: 50, interval, ..base_book().settings };
    Book { settings, ..base_book() }
}

/// A region with generation and defaults, good at these points alone.
fn region_of_groups(
    book: &mut Book,
    region: usize,
    generation: i128,
    defaults: [i128; 6],
    points: &[(usize, i128)],
) {
    book.frequencies[region].generation = generation;
    book.frequencies[region].defaults = defaults;
    good_only_at(book, region, points);
}

/// Groups beside units without one: units 2 and 3 move alike, one a generator and one a load.
fn groups() -> Book {
    let mut book = half_bad(73, 115);
    region_of_groups(&mut book, 0, 3, [0, 0, -4, 0, 0, -6], &[(1, 49_980_000), (41, 50_020_000)]);
    region_of_groups(&mut book, 1, 1, [0, 0, -9, 0, 0, -2], &[(1, 49_970_000), (31, 50_030_000)]);
    let away = |t: i128| if t <= 20 { 100 } else { 160 };
    book.units = vec![
        with_defaults(unit(1, 0, false, 0, 0, |t| if t <= 40 { 10 } else { -13 }), [0, 0, -5, 0, 0, -7]),
        in_group(
            3,
            with_defaults(unit(2, 0, false, 1_000, 1_075, |t| 1_000 + t + away(t)), [0, 0, -11, 0, 0, -3]),
        ),
        in_group(3, unit(3, 0, true, 500, 500, |t| 500 + away(t))),
        in_group(1, with_defaults(unit(4, 0, true, 0, 0, |_| -30), [0, 0, -8, 0, 0, -10])),
        in_group(1, unit(5, 0, false, 0, 0, |_| -50)),
        with_defaults(unit(6, 0, true, 0, 0, |_| 5), [0, 0, -1, 0, 0, -1]),
        in_group(65_535, with_defaults(unit(7, 1, false, 0, 0, |_| -8), [0, 0, -6, 0, 0, -12])),
        in_group(65_535, unit(8, 1, true, 0, 0, |_| -3)),
        in_group(65_535, unit(9, 1, false, 0, 0, |_| -2)),
    ];
    book.requirements = vec![
        requirement(1, 0b00001, Direction::Raise, 9_000, 1_000, 400, 100),
        requirement(2, 0b00001, Direction::Lower, 9_000, 1_000, 400, 100),
        requirement(3, 0b00011, Direction::Raise, 6_000, 777, 10, 7),
    ];
    book
}

/// A group of two bad units and a good unit; a group with a bad unit in its middle; of three groups the first with a bad primary, the second
/// with a bad unit at its end.
fn bad_groups_units() -> Vec<Unit> {
    let bad_at = |t: usize, unit: Unit| with_bad_readings(unit, t, t);
    vec![
        in_group(
            2,
            with_defaults(
                bad_at(1, unit(11, 1, false, 0, 0, |_| 90)),
                [-375_000_000, -750_000_000, -3, 0, 0, 0],
            ),
        ),
        in_group(2, bad_at(75, unit(12, 1, true, 0, 0, |_| 80))),
        with_defaults(unit(13, 1, false, 0, 0, |_| 40), [-1, -2, -8, 0, 0, 0]),
        in_group(
            500,
            with_defaults(unit(21, 2, false, 0, 0, |_| 70), [-225_000_000, -450_000_000, -13, 0, 0, 0]),
        ),
        in_group(500, unit(22, 2, true, 0, 0, |_| 60)),
        in_group(500, bad_at(40, unit(23, 2, false, 0, 0, |_| 50))),
        in_group(500, unit(24, 2, true, 0, 0, |_| 20)),
        in_group(
            65_535,
            with_defaults(
                bad_at(1, unit(31, 3, false, 0, 0, |_| 25)),
                [-150_000_000, -50_000_000, -21, -180_000_000, -60_000_000, -9],
            ),
        ),
        in_group(65_535, unit(32, 3, false, 0, 0, |_| 35)),
        in_group(
            1,
            with_defaults(
                unit(33, 3, true, 0, 0, |_| 45),
                [-120_000_000, -30_000_000, -17, -240_000_000, -90_000_000, -19],
            ),
        ),
        in_group(1, bad_at(75, unit(34, 3, false, 0, 0, |_| 55))),
        in_group(256, with_defaults(unit(35, 3, true, 100, 100, |_| 102), [-7, -8, -1, -9, -10, -2])),
        in_group(256, unit(36, 3, false, 0, 0, |_| 14)),
    ]
}

/// Groups with a bad unit at each place, at percent 50.
fn bad_groups() -> Book {
    let mut book = half_bad(74, 116);
    region_of_groups(&mut book, 1, 10, [-100, -200, -4, 0, 0, 0], &[(1, 49_980_000)]);
    region_of_groups(&mut book, 2, 20, [-600_000_000, -900_000_000, -5, 0, 0, 0], &[(1, 49_970_000)]);
    region_of_groups(
        &mut book,
        3,
        5,
        [0, 0, -6, -300_000_000, -400_000_000, -7],
        &[(1, 49_980_000), (41, 50_020_000)],
    );
    book.units = bad_groups_units();
    book.requirements = vec![
        requirement(1, 0b00010, Direction::Raise, 9_000, 1_000, 400, 100),
        requirement(2, 0b00110, Direction::Raise, 9_000, 1_000, 400, 100),
        requirement(3, 0b00100, Direction::Raise, 9_000, 1_000, 400, 100),
        requirement(4, 0b01000, Direction::Raise, 9_000, 1_000, 400, 300),
        requirement(5, 0b01000, Direction::Lower, 9_000, 1_000, 400, 300),
    ];
    book
}

fn group_of_13() -> Book {
    let mut book = half_bad(74, 117);
    region_of_groups(&mut book, 4, 1, [0, 0, 0, -3, -4, -7], &[(1, 50_020_000)]);
    let bad = with_bad_readings(unit(5, 4, false, 0, 0, |_| 9), 38, 38);
    book.units = vec![with_defaults(bad, [0, 0, 0, -50_000_000, -70_000_000, -3])];
    book.units
        .extend((1..=13).map(|nth| in_group(13, unit(100 + nth, 4, nth % 3 == 0, 0, 0, |_| -nth * nth))));
    book.units[1].defaults = [0, 0, 0, -1, -2, -5];
    book.requirements = vec![requirement(1, 0b10000, Direction::Lower, 12_000, 1_001, 10, 3)];
    book
}

/// Document 01's book, each of its units the one unit of a group.
fn groups_of_one() -> Book {
    let mut book = listing_book();
    book.units[0].group = 1;
    book.units[1].group = 65_535;
    book
}

pub fn all() -> Vec<Worked> {
    vec![
        Worked {
            name: "listing",
            shows: "Document 01's listing in full.",
            book: listing_book(),
            behind: &[],
        },
        Worked {
            name: "lower_two_regions",
            shows: "Lower over two regions in one set, generation and load, one RCR over the set;\n\
                    then one region alone; then raise in the same regions, where no point has FM\n\
                    above 0, so every member stands on its raise defaults and all cost is unused.",
            book: lower_two_regions(),
            behind: &[],
        },
        Worked {
            name: "default_reasons",
            shows: "Each default reason: unit 20 is a bad unit, region 1 is unreliable by separation,\n\
                    region 2 has no good unit, region 4 is unreliable by FM 10000 at all points.\n\
                    Region 3 has no unit and its residual is live. Requirement 1: one bad of two at\n\
                    percent 66 keeps RCR. Requirement 2: two bad of three makes RCR 0. Requirement 3:\n\
                    unreliable regions make RCR and used pool 0.",
            book: default_reasons(),
            behind: &[],
        },
        Worked {
            name: "bad_frequency_points",
            shows: "a 5000 from FM -20000 towards 40000; region 0 has ten bad points (the limit) where\n\
                    FM stays 25000; region 3 has eleven and is unreliable.",
            book: bad_frequency_points(),
            behind: &[],
        },
        Worked {
            name: "sign_turned",
            shows: "Generation weights turn the sign: both regions need raise at t 1 to 10; at t 11 to 60\n\
                    region 0 needs raise, but region 1 weighs more and needs lower. Requirement 1 takes\n\
                    its RCR at t 10, requirement 2 (region 0 alone) at t 60. At t 75, where the response is\n\
                    largest, the weights cancel the sign, and it is neither's: requirement 3 takes its RCR\n\
                    at t 74. Requirement 1 has used over enabled, requirement 3 used 0. Requirement 4:\n\
                    a region that needs raise but has no generation, so no sign.",
            book: sign_turned(),
            behind: &[],
        },
        Worked {
            name: "unplaced",
            shows: "Requirement 1: both units on their trajectory, no weight anywhere, used and unused\n\
                    unplaced. Requirement 2: enabled 0. Requirement 3: a region whose only unit is bad,\n\
                    a negative side alone, no used weight.",
            book: unplaced(),
            behind: &[],
        },
        Worked {
            name: "ramp",
            shows: "FM 30000 - 800·t, so raise to t 37 and lower from t 38; trajectories that fall between\n\
                    whole cMW and are not rounded; a load that ramps down; the highest unit number.",
            book: ramp(),
            behind: &[],
        },
        Worked {
            name: "ties",
            shows: "Equal weights and left-overs: equal remainders of equal weights go to the earlier member;\n\
                    a member without weight gets nothing.",
            book: ties(),
            behind: &[],
        },
        Worked {
            name: "larger_first",
            shows: "Equal remainders of different weights: the larger weight first, then the earlier member. One\n\
                    cMW off the trajectory comes to 60000000 for raise and 52500000 for lower, and the defaults of\n\
                    units 6 and 7, which are bad, are multiples of it. So the weights for raise are\n\
                    \x20 4, 1, 295 (units 1 to 3), on the other side 2, 5, 199, 101, 293 (units 4 to 7, residual),\n\
                    \x20 used 2, 5, 47, 53, 293 (units 4 to 7, residual), unused 1, 3, 1, 3, 5, 3, 5, 3\n\
                    and for lower\n\
                    \x20 2, 5, 293 (units 4, 5, residual), on the other side 4, 1, 295, 103, 197 (units 1 to 3, 6, 7),\n\
                    \x20 used 4, 1, 295, 40, 20 (units 1 to 3, 6, 7), unused 2, 5, 0, 8, 5, 2, 0, 8.\n\
                    Raise, used: 200 over 400 leaves a half to 5, 47, 53, 293, and the two left-overs go to the\n\
                    residual and to unit 7, whose payment is by a smaller weight than that of unit 6. Raise, unused: 300\n\
                    over 24 leaves a half to everybody, and the four left-overs go to the two of 5 and to the first two\n\
                    of 3. Lower, used: 120 over 360 leaves a third to 4, 1, 295, 40 and two thirds to 20; so unit 7 comes\n\
                    first, then unit 3.",
            book: larger_first(),
            behind: &[],
        },
        Worked {
            name: "one_side",
            shows: "RCR above 0, yet no pool: unit 1 moves at t 8 to 75 only, where its region needs lower\n\
                    but the set, by the weight of the other region, raise. Requirement 1: only a\n\
                    negative side, by the defaults of unit 2 and of region 1's residual. Requirement 2:\n\
                    no side at all, used and unused unplaced. Requirement 3: region 0 alone, where RCR\n\
                    is 0 too; enabled 1. Requirement 4: lower, where unit 1 hinders and the residual helps.\n\
                    Requirements 5 and 6: 1 and 3 mirrored, in regions 3 and 4.",
            book: one_side(),
            behind: &[],
        },
        Worked {
            name: "no_units",
            shows: "Roster 0: live residuals at 0; used unplaced; the unused pool on the residual alone;\n\
                    requirement 1 adds a region at 50 Hz, which is unreliable.",
            book: no_units(),
            behind: &[],
        },
        Worked {
            name: "lower_defaults",
            shows: "Lower where defaults stand in, in regions whose FM is what few good points left.\n\
                    Region 0 has 74 bad points, the limit; region 1 is separated, its unit good; region 2 has 75 bad\n\
                    points; region 3 keeps the FM before the interval to t 74 and has no good unit; region\n\
                    4 has FM -10000 throughout. Requirement 1: one bad of two at percent 50 keeps RCR.\n\
                    Requirement 2: two bad of three makes RCR 0, the used pool stays. The others:\n\
                    unreliable, without units but for requirement 3.",
            book: lower_defaults(),
            behind: &[],
        },
        Worked {
            name: "edges_of_reliability",
            shows: "72 bad points, the limit: they count with the FM that they keep. Lower: region 0 has one\n\
                    FM of -10001 at t 1 and six of -1 from t 70 on, region 1 five of -1, region 2 74 of -10000\n\
                    and one of 10001. Raise: region 3 has six FM of 1 and one of 10001, region 4 five of 1, one\n\
                    of 10001 and 69 of -1. Units 1 and 2 are furthest from their lines where FM is 0: there is\n\
                    no sign, and RCR is taken at t 70 and at t 69.",
            book: edges_of_reliability(),
            behind: &[],
        },
        Worked {
            name: "every_field",
            shows:
                "Each field holds a value of its own; three good points to a region. Region 3 has no good\n\
                    unit. Requirement 1027: used over enabled, one bad of one at percent 33.",
            book: every_field(),
            behind: &[],
        },
        Worked {
            name: "thirteen_units",
            shows: "What settle itself puts together: thirteen units in rows that no region has to itself, six\n\
                    requirements whose sets leave units out. Requirement 300: units on their trajectory and\n\
                    without defaults, so that different amounts of used and of unused are unplaced.\n\
                    Requirements 8, 301 and 9999: a default residual, by a region without a good unit and by\n\
                    an unreliable one. Requirements 7 and 60000: a live one, and a bad unit among live ones.",
            book: thirteen_units(),
            behind: &[],
        },
        Worked {
            name: "dropped_edges",
            shows: "Points where measure and frequency disagree. Region 0, FM above 0: t 1 and t 7 are kept at\n\
                    50015000, t 2 and t 5 dropped at 50015001; t 3 and t 4 between them are bad and kept with the\n\
                    FM of t 2; t 6 and t 10 are outside the band on the other side and kept, as t 8 is at 49985000;\n\
                    t 9 is dropped with FM 1; at t 11 FM comes to 0, which is kept. FM below 0: t 12, t 18 and t 22\n\
                    are outside on the other side and kept, as t 20 is at 50015000; t 13 and t 19 are kept at\n\
                    49985000, t 14 and t 17 dropped at 49984999; t 15 and t 16 between them are bad and kept; t 21 is\n\
                    dropped with FM -1; at t 23 FM comes to 0, which is kept. In region 1 all of t 1 to 17 is outside\n\
                    the band and nothing dropped. Both residuals are live: a region's performances add up to zero.",
            book: dropped_edges(),
            behind: &[],
        },
        Worked {
            name: "dropped_reliability",
            shows: "Dropped points count for reliability and for RCR. Region 0, lower: t 1 is dropped, and no other\n\
                    point has FM below -10000. Region 0, raise: seven points have FM above 0, and t 12, which is\n\
                    dropped, is one of them. Region 1 has the other sign at both, but region 0 weighs three times as\n\
                    much. RCR for raise is that of t 12; it would be 1200 (t 11) without the dropped points, and\n\
                    7050 (t 1) if region 0 had no FM in the sign there. RCR for lower is that of t 1; likewise it\n\
                    would be 1200 (t 2) and 5775 (t 12). Unit 1 would help to raise over all points; over the kept\n\
                    ones it hinders.",
            book: dropped_reliability(),
            behind: &[],
        },
        Worked {
            name: "table_15",
            shows: "Region 3 has the frequencies of source document 000's table 15 (SA1), its measures to the 5 µHz that\n\
                    tests/vectors tells of, and its first point, which the table gives the measure 0, as a bad one.\n\
                    Which points are dropped was read from the table's own columns by hand: deviation and measure\n\
                    have one sign, and the deviation is more than 0.015 Hz either way:\n\
                    \x20 t 20, 12:04:20 AM, deviation -0.01875, Frequency Measure -0.00343\n\
                    \x20 t 58, 12:06:52 AM, deviation 0.01550, Frequency Measure 0.00047\n\
                    \x20 t 68, 12:07:32 AM, deviation -0.02000, Frequency Measure -0.00447\n\
                    One sign, but a deviation within the band, have t 16, 19, 23, 27, 34, 37, 41, 42, 51, 57, 62 and\n\
                    75, the farthest of them t 37 with -0.01300: they are kept. At t 70 the deviation is -0.01500, an\n\
                    edge of the band, but the measure is above 0.",
            book: table_15(),
            behind: &[],
        },
        Worked {
            name: "byte_behind",
            shows: "The same book and a byte behind it: refused 4 6 0, the place of the last requirement.",
            book: thirteen_units(),
            behind: &[0],
        },
        Worked {
            name: "number_not_rising",
            shows: "The same book, its tenth unit with the number of the ninth: refused 9 10 0.",
            book: number_not_rising(),
            behind: &[],
        },
        Worked {
            name: "readings_out_of_range",
            shows: "The same book, with the readings at t 9 and t 75 of its eleventh unit out of range, and the first one of\n\
                    its twelfth: refused 84 11 9.",
            book: readings_out_of_range(),
            behind: &[],
        },
        Worked {
            name: "groups_beside",
            shows: "Units that are dispatched as a group. Units 1 and 2 are group 3, a generator and a load that cancel;\n\
                    units 4 to 6 are group 5 next to it, no unit has group 4 between them; unit 9 is ungrouped; units 10 and 11,\n\
                    the last of the roster, are group 4 in region 1. RCR takes a group's deviation as one.",
            book: groups_beside(),
            behind: &[],
        },
        Worked {
            name: "groups_bad",
            shows: "One bad unit makes its group bad: the first of group 1, the middle one of group 2, the last of group 3.\n\
                    Requirements 1 and 3: one bad of two members, at percent 50, keeps RCR, though it is one of four units.\n\
                    Requirement 2: region 1 has no good member, though it has good units. Requirement 4: two of four members.\n\
                    Requirement 5: three of five members make RCR 0, though three of eleven units are bad.",
            book: groups_bad(),
            behind: &[],
        },
        Worked {
            name: "group_returns",
            shows: "The first of these books, its sixth unit in group 3 again: refused 16 6 0.",
            book: groups_refused(|units| units[5].group = 3),
            behind: &[],
        },
        Worked {
            name: "group_in_two_regions",
            shows: "The same book, its fifth unit in region 1: refused 16 5 0.",
            book: groups_refused(|units| units[4].region = 1),
            behind: &[],
        },
        Worked {
            name: "group_with_a_default",
            shows: "The same book, its eighth unit with a default, though it is not the group's first: refused 16 8 0.",
            book: groups_refused(|units| units[7].defaults[5] = -1),
            behind: &[],
        },
        Worked {
            name: "groups",
            shows: "Groups 3 and 1 side by side between two units without one, and the largest group number at the end of\n\
                    the roster, in a region of its own. Unit 2 is a generator and unit 3 a load, and they cancel at each point;\n\
                    the primary of group 1, unit 4, is a load, unit 5 a generator. Requirement 3: both regions.",
            book: groups(),
            behind: &[],
        },
        Worked {
            name: "ungrouped",
            shows: "The units of the book groups, none of them in a group: each is a member of its own, and RCR is larger.",
            book: rules::without_groups(&groups()),
            behind: &[],
        },
        Worked {
            name: "bad_groups",
            shows: "Percent 50. Region 1: a group of two bad units and a good unit; one bad of two members keeps RCR, though\n\
                    two of three units are bad. Region 2: a group with a bad unit in its middle and no other member, so that\n\
                    there is no good member; with region 1 two bad of three members make RCR 0, though three of seven units\n\
                    are bad. Region 3: the first unit of a group is bad, the last of the next one, and the group at the end of\n\
                    the roster is good, a load and a generator.",
            book: bad_groups(),
            behind: &[],
        },
        Worked {
            name: "group_of_13",
            shows: "A group of thirteen units at the end of the roster, every third of them a load, and a bad unit before it.",
            book: group_of_13(),
            behind: &[],
        },
        Worked {
            name: "groups_of_one",
            shows: "Document 01's listing again: a group of one is its unit, with the first group number and with the last.",
            book: groups_of_one(),
            behind: &[],
        },
    ]
}
