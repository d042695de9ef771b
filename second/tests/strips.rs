//! The trend strip (request R-2): points by bits, the small record, bad units, every refusal and its order, the lines of `trend`,
//! the script, and what its makers reach.

use std::collections::{BTreeMap, BTreeSet};
use std::fs;
use std::io::Write;
use std::process::{Command, Output, Stdio};

use second::book::{Book, Refusal, Unit, UNIT_SIZE};
use second::chance::Chance;
use second::deviation::{unit_deviations, unit_is_good};
use second::listing::settle;
use second::make::{make, CLASSES, GROUPED, ROSTERS};
use second::quantities::*;
use second::strip::*;
use second::strip_script::*;
use second::strip_text::*;
use second::strip_trials::*;
use second::strip_units::*;
use second::sweep::put;
use second::worked::listing_book;
use second::write::{base_book, base_frequency, base_requirement, base_unit, to_bytes};

const FARTHEST: i128 = 15_000_000;

/// What the machine's own division makes of a deviation.
fn divided(deviation: i128) -> Bits {
    (deviation as f32 / 7_500f32).to_bits()
}

#[test]
fn worked_points_by_bits() {
    let worked = [
        (0, 0x0000_0000),
        (1, 0x390B_CF65),
        (3, 0x39D1_B717),
        (5, 0x3A2E_C33E),
        (100, 0x3C5A_740E),
        (7_499, 0x3F7F_F743),
        (7_501, 0x3F80_045E),
        (-7_500, 0xBF80_0000),
        (14_999_999, 0x44F9_FFFF),
        (15_000_000, 0x44FA_0000),
        (-1, 0xB90B_CF65),
        (-14_999_999, 0xC4F9_FFFF),
        (-15_000_000, 0xC4FA_0000),
    ];
    for (deviation, bits) in worked {
        assert_eq!(point(deviation), bits, "{deviation}");
    }
}

/// Every deviation that a unit can have, against the machine's division; each gives a larger point than the one before, none is
/// minus zero, infinite or no number.
#[test]
fn all_30000001_deviations_are_as_the_machine_divides_them() {
    let mut met = 0_u32;
    let mut before = None;
    for deviation in -FARTHEST..=FARTHEST {
        let bits = point(deviation);
        assert_eq!(bits, divided(deviation), "{deviation}");
        assert!(before.is_none_or(|before| before < rank(bits)), "{deviation}");
        assert_eq!(rank(bits).signum(), deviation.signum(), "{deviation}");
        assert_ne!(bits, 0x8000_0000, "{deviation}");
        assert!(bits & 0x7F80_0000 != 0x7F80_0000, "{deviation}");
        before = Some(rank(bits));
        met += 1;
    }
    assert_eq!(met, 30_000_001);
}

#[test]
fn a_multiple_of_7500_is_its_whole_number_of_megawatts() {
    for megawatts in -2_000..=2_000_i128 {
        assert_eq!(point(7_500 * megawatts), (megawatts as f32).to_bits(), "{megawatts}");
    }
}

/// Ties to even are met by no deviation, but by other numbers; the machine's conversions and divisions are held against.
#[test]
fn the_nearest_binary32_of_other_fractions() {
    let ties = [(16_777_217, 0x4B80_0000), (16_777_219, 0x4B80_0002), (33_554_431, 0x4C00_0000)];
    for (whole, bits) in ties {
        assert_eq!(nearest_binary32(whole, 1), bits, "{whole}");
        assert_eq!(nearest_binary32(-whole, 1), bits | 0x8000_0000, "-{whole}");
        assert_eq!(nearest_binary32(whole, 1), (whole as f32).to_bits(), "{whole}");
        assert_eq!(nearest_binary32(whole, 1 << 40), (whole as f32 / (1u64 << 40) as f32).to_bits());
    }
    let mut chance = Chance::new(30);
    for _ in 0..20_011 {
        let whole = chance.any_size(1 << 60);
        assert_eq!(nearest_binary32(whole, 1), (whole as f32).to_bits(), "{whole}");
        let (above, below) = (chance.any_size((1 << 24) - 1), 1 + chance.any_size((1 << 24) - 2));
        assert_eq!(nearest_binary32(-above, below), (0f32 - above as f32 / below as f32).to_bits());
        assert_eq!(nearest_binary32(above, below), (above as f32 / below as f32).to_bits());
    }
}

/// Two other ways to divide are right at every whole MW; the first is wrong from 3 on, the second from 5 on.
#[test]
fn other_divisions_are_told_apart() {
    let times = |deviation: i128| (deviation as f32 * (1f32 / 7_500f32)).to_bits();
    let twice = |deviation: i128| (deviation as f32 / 75f32 / 100f32).to_bits();
    for megawatts in -2_000..=2_000_i128 {
        assert_eq!(times(7_500 * megawatts), point(7_500 * megawatts), "{megawatts}");
        assert_eq!(twice(7_500 * megawatts), point(7_500 * megawatts), "{megawatts}");
    }
    let first_wrong =
        |other: &dyn Fn(i128) -> Bits| (0..).find(|&deviation| other(deviation) != point(deviation));
    assert_eq!(first_wrong(&times), Some(3));
    assert_eq!(first_wrong(&twice), Some(5));
}

/// A unit with these readings, its trajectory level.
fn level_unit(load: bool, set_point: i128, reading: impl Fn(i128) -> i128) -> Unit {
    let mut unit = base_unit(7, 2);
    unit.load = load;
    (unit.start, unit.end) = (set_point, set_point);
    for (place, value) in unit.readings.iter_mut().enumerate() {
        *value = reading(place as i128 + 1);
    }
    unit
}

fn drawn(unit: &Unit) -> ([Bits; POINTS], SmallRecord) {
    match trend_of(unit) {
        Trend::Drawn(points, small) => (points, small),
        Trend::Bad => panic!("a bad unit"),
    }
}

fn small(lowest: Bits, highest: Bits, last: Bits) -> SmallRecord {
    SmallRecord { lowest, highest, last }
}

#[test]
fn a_load_on_its_set_point_is_positive_zero_throughout() {
    for load in [false, true] {
        let (points, three) = drawn(&level_unit(load, 4_321, |_| 4_321));
        assert_eq!(points, [0; POINTS]);
        assert_eq!(three, POSITIVE_ZEROS);
        let mut rising = level_unit(load, -77, |t| -77 + 3 * t);
        rising.end = -77 + 3 * 75;
        assert_eq!(drawn(&rising), ([0; POINTS], POSITIVE_ZEROS));
    }
}

/// Every point is below zero, and so is the highest: it is not folded from zero.
#[test]
fn an_all_negative_strip_has_its_highest_below_zero() {
    let (points, three) = drawn(&level_unit(false, 500, |t| 500 - 100 * (1 + t % 7)));
    assert_eq!(points[0], (-2f32).to_bits());
    assert_eq!(three, small((-7f32).to_bits(), (-1f32).to_bits(), (-6f32).to_bits()));
    let (_, as_a_load) = drawn(&level_unit(true, 500, |t| 500 - 100 * (1 + t % 7)));
    assert_eq!(as_a_load, small(1f32.to_bits(), 7f32.to_bits(), 6f32.to_bits()), "an all-positive one");
}

#[test]
fn a_spike_at_one_t_is_lowest_or_highest() {
    for at in 1..=75 {
        for (moved, load) in [(1, false), (-1, false), (1, true), (-1, true)] {
            let unit = level_unit(load, 100, |t| if t == at { 100 + moved } else { 100 });
            let (points, three) = drawn(&unit);
            let spike = point(if load { -75 * moved } else { 75 * moved });
            let wanted: Vec<Bits> = (1..=75).map(|t| if t == at { spike } else { 0 }).collect();
            assert_eq!(points.to_vec(), wanted);
            let last = if at == 75 { spike } else { 0 };
            let up = (moved == 1) != load;
            assert_eq!(three, if up { small(0, spike, last) } else { small(spike, 0, last) });
        }
    }
}

/// Document 01's edge: start 0, end 100, reading 0 at t = 1 is -100, as a load 100; and the last t has the whole of the end.
#[test]
fn the_trajectory_is_not_rounded() {
    let mut unit = level_unit(false, 0, |_| 0);
    unit.end = 100;
    let (points, three) = drawn(&unit);
    assert_eq!(points[0], point(-100));
    assert_eq!(points[74], (-1f32).to_bits());
    assert_eq!(three, small((-1f32).to_bits(), 0xBC5A_740E, (-1f32).to_bits()));
    unit.load = true;
    assert_eq!(drawn(&unit).1, small(0x3C5A_740E, 0x3F80_0000, 0x3F80_0000));
}

#[test]
fn the_farthest_points() {
    for load in [false, true] {
        let up = drawn(&level_unit(load, -100_000, |_| 100_000));
        let down = drawn(&level_unit(load, 100_000, |_| -100_000));
        let (up, down) = if load { (down, up) } else { (up, down) };
        assert_eq!(up, ([0x44FA_0000; POINTS], small(0x44FA_0000, 0x44FA_0000, 0x44FA_0000)));
        assert_eq!(down, ([0xC4FA_0000; POINTS], small(0xC4FA_0000, 0xC4FA_0000, 0xC4FA_0000)));
    }
}

/// By value and by deviations the lowest and the highest are the same.
#[test]
fn the_small_record_is_that_of_the_deviations() {
    let mut chance = Chance::new(31);
    for _ in 0..3_001 {
        let unit = shaped_unit(&mut chance);
        let deviations = unit_deviations(&unit);
        let (points, three) = drawn(&unit);
        let [lowest, highest] = [deviations.iter().min(), deviations.iter().max()].map(|end| *end.unwrap());
        assert_eq!(three, small(point(lowest), point(highest), point(deviations[74])));
        assert_eq!(points, deviations.map(divided));
    }
}

/// A unit without anything wrong, which is away from its trajectory by another amount at each t.
fn plain_unit() -> Unit {
    level_unit(false, 1_000, |t| 1_000 + t * t % 83)
}

fn refused(part: &[u8], lent: Lent) -> Option<Refusal> {
    trend(part, lent).err()
}

fn at(number: u8, t: usize) -> Option<Refusal> {
    Some(Refusal { number, place: 0, t })
}

/// The plain unit's record with such values put into it: place in the record, width, value.
fn record_with(values: &[(usize, usize, i128)]) -> Vec<u8> {
    let mut record = record_of(&plain_unit());
    values.iter().for_each(|&(at, width, value)| put(&mut record, at, width, value));
    record
}

fn reading_at(t: usize) -> usize {
    72 + 4 * (t - 1)
}

/// The plain unit with bad readings at these t.
fn bad_at(ts: &[usize]) -> Vec<u8> {
    let mut unit = plain_unit();
    for t in ts {
        unit.good[t - 1] = false;
        unit.readings[t - 1] = 0;
    }
    record_of(&unit)
}

/// What stays of lists that are written of before the call.
fn as_before(lent: Lent) -> Left {
    let from = |first: u32, length: usize| (0..(length + 3) as u32).map(|place| first + place).collect();
    Left {
        points: from(0x4049_0FDB, lent.points),
        strip: from(0x3FC0_0000, lent.strip),
        drawn: from(7, lent.drawn),
    }
}

#[test]
fn a_unit_with_a_bad_reading_is_bad_wherever_it_stands() {
    let all: Vec<usize> = (1..=75).collect();
    let cases: [&[usize]; 7] = [&[1], &[75], &[38], &[8, 9], &[1, 75], &all, &all[..74]];
    for ts in cases {
        assert_eq!(trend(&bad_at(ts), EXACT), Ok(Trend::Bad), "{ts:?}");
    }
    assert_eq!(Trend::Bad.small_record(), small(0, 0, 0));
}

/// The last reading bad: three positive zeros and a 0, and all else as it was.
#[test]
fn the_points_of_a_bad_unit_stay() {
    let lent = Lent { points: 80, strip: 4, drawn: 2 };
    let (reply, left) = made_of(&Call { part: bad_at(&[75]), lent });
    assert_eq!(reply, "bad");
    let mut wanted = as_before(lent);
    wanted.strip[..3].fill(0);
    wanted.drawn[0] = 0;
    assert_eq!(left, wanted);
}

#[test]
fn what_is_past_the_75_points_stays() {
    for points in [75, 76, 80] {
        let lent = Lent { points, strip: 4, drawn: 2 };
        let (reply, left) = made_of(&Call { part: record_of(&plain_unit()), lent });
        assert_eq!(reply, "drawn");
        let mut wanted = as_before(lent);
        let (drawn_points, three) = drawn(&plain_unit());
        wanted.points[..75].copy_from_slice(&drawn_points);
        wanted.strip[..3].copy_from_slice(&[three.lowest, three.highest, three.last]);
        wanted.drawn[0] = 75;
        assert_eq!(left, wanted);
    }
}

#[test]
fn a_refused_call_writes_nothing() {
    let lent = Lent { points: 74, strip: 5, drawn: 3 };
    let spare = record_with(&[(69, 1, 0b1000_0111)]);
    for (part, lent, said) in [
        (record_of(&plain_unit()), lent, "refused 12 0 0"),
        (spare, Lent { points: 77, ..lent }, "refused 83 0 0"),
        (record_with(&[(reading_at(53), 4, 100_001)]), EXACT, "refused 84 0 53"),
        (Vec::new(), EXACT, "refused 1 0 0"),
    ] {
        let (reply, left) = made_of(&Call { part, lent });
        assert_eq!(reply, said);
        assert_eq!(left, as_before(lent));
    }
}

/// 12 for each list alone, before 1, before every field, and before a bad reading.
#[test]
fn lists_that_are_too_short() {
    let mut wrong = record_with(&[(2, 1, 5)]);
    let parts = [record_of(&plain_unit()), Vec::new(), wrong.clone(), bad_at(&[75]), wrong.split_off(371)];
    for part in parts {
        for points in [0, 1, 74, 75, 76, 80] {
            for strip in [0, 2, 3, 4] {
                for drawn in [0, 1, 2] {
                    let short = points < 75 || strip < 3 || drawn < 1;
                    let said = refused(&part, Lent { points, strip, drawn });
                    assert_eq!(said == at(12, 0), short, "{points} {strip} {drawn}");
                }
            }
        }
    }
}

#[test]
fn a_part_that_ends_before_its_record_is_1() {
    let wrong = record_with(&[(2, 1, 5), (69, 1, 255), (reading_at(1), 4, 100_001)]);
    for whole in [record_of(&plain_unit()), bad_at(&[1]), wrong.clone()] {
        for length in 0..UNIT_SIZE {
            assert_eq!(refused(&whole[..length], EXACT), at(1, 0), "{length}");
        }
    }
    assert_eq!(refused(&wrong, EXACT), at(81, 0));
    let longer = [record_of(&plain_unit()), vec![255; 373]].concat();
    assert_eq!(trend(&longer[..373], EXACT), trend(&longer, EXACT));
    assert_eq!(trend(&longer, EXACT), Ok(trend_of(&plain_unit())));
}

/// A field of the record: its place, its width, values that it may have, values that it may not, the number and t.
type Field<'a> = (usize, usize, &'a [i128], &'a [i128], u8, usize);

#[test]
fn both_sides_of_every_limit() {
    let power: (&[i128], &[i128]) =
        (&[-100_000, -1, 0, 100_000], &[-100_001, 100_001, i32::MIN as i128, i32::MAX as i128]);
    let default: (&[i128], &[i128]) =
        (&[-5_625_000_000_000_000, -1, 0], &[-5_625_000_000_000_001, 1, i64::MIN as i128, i64::MAX as i128]);
    let mut fields: Vec<Field> = vec![
        (0, 2, &[0, 1, 65_535], &[], 0, 0),
        (2, 1, &[0, 4], &[5, 255], 81, 0),
        (3, 1, &[0, 1], &[2, 255], 81, 0),
        (4, 4, power.0, power.1, 81, 0),
        (8, 4, power.0, power.1, 81, 0),
        (69, 1, &[0b0000_0111], &[0b0000_1111, 0b1000_0111, 0b0100_0111, 0b0010_0111, 0b0001_0111], 83, 0),
        (70, 2, &[0, 1, 256, 65_535], &[], 0, 0),
    ];
    fields.extend((0..6).map(|place| (12 + 8 * place, 8, default.0, default.1, 82, 0)));
    fields.extend((1..=75).map(|t| (reading_at(t), 4, power.0, power.1, 84, t)));
    for (place, width, right, wrong, number, t) in fields {
        for &value in right {
            let part = record_with(&[(place, width, value)]);
            assert_eq!(refused(&part, EXACT), None, "{place} {value}");
        }
        for &value in wrong {
            let part = record_with(&[(place, width, value)]);
            assert_eq!(refused(&part, EXACT), at(number, t), "{place} {value}");
        }
    }
    for t in 1..=75 {
        for value in [1, -1, 100_000] {
            let mut part = bad_at(&[t]);
            put(&mut part, reading_at(t), 4, value);
            assert_eq!(refused(&part, EXACT), at(84, t), "a bad reading that holds {value}");
        }
    }
}

/// Two faults at a time: 81 before 82, 83 and 84, 82 before 83, of two readings the first, and every one before a bad reading.
#[test]
fn the_order_of_refusals() {
    let header = [(2, 1, 5), (3, 1, 2), (4, 4, 100_001), (8, 4, -100_001)];
    let later = [(52, 8, 1, 82, 0), (69, 1, 0b0000_1111, 83, 0), (reading_at(1), 4, 100_001, 84, 1)];
    for first in header {
        for (place, width, value, ..) in later {
            let part = record_with(&[first, (place, width, value)]);
            assert_eq!(refused(&part, EXACT), at(81, 0), "{first:?} {place}");
        }
    }
    for (one, (place, width, value, number, t)) in later.into_iter().enumerate() {
        for (place2, width2, value2, ..) in later.into_iter().skip(one) {
            let part = record_with(&[(place, width, value), (place2, width2, value2)]);
            assert_eq!(refused(&part, EXACT), at(number, t), "{place} {place2}");
        }
    }
    for (early, late) in [(1, 2), (1, 75), (8, 9), (37, 74), (74, 75)] {
        let two = record_with(&[(reading_at(late), 4, -100_001), (reading_at(early), 4, 100_001)]);
        assert_eq!(refused(&two, EXACT), at(84, early));
        for (bad, wrong) in [(early, late), (late, early)] {
            let mut part = bad_at(&[bad]);
            put(&mut part, reading_at(wrong), 4, 100_001);
            assert_eq!(refused(&part, EXACT), at(84, wrong), "bad at {bad}");
        }
        for (place, width, value, number, _) in later.into_iter().take(2) {
            let mut part = bad_at(&[early, late]);
            put(&mut part, place, width, value);
            assert_eq!(refused(&part, EXACT), at(number, 0));
        }
    }
}

/// A strip is of one record: number and group are not looked at, and of a unit in a group it is the unit's own.
#[test]
fn neither_9_nor_16_is_given() {
    let alone = trend_of(&plain_unit());
    for number in [0, 7, 65_535] {
        for group in [0, 1, 256, 65_535] {
            let part = record_with(&[(0, 2, number), (70, 2, group), (12, 8, -1)]);
            assert_eq!(trend(&part, EXACT).as_ref(), Ok(&alone), "{number} {group}");
        }
    }
}

fn book_of(units: Vec<Unit>) -> Book {
    let mut book = base_book();
    book.units = units;
    book.requirements.push(base_requirement(1, 31, Direction::Raise));
    book
}

fn text_of(book: &Book) -> String {
    printed(&to_bytes(book), Form::Text)
}

fn numbered(number: i128, unit: Unit) -> Unit {
    Unit { number, ..unit }
}

/// Lines worked by hand: a plant that leaves its set point by one cMW more at each t, as a generator and as a load, one that sits on
/// its set point, one that is bad, one with a spike. Of the first the level of t is 600·(t - 1) div 5551.
#[test]
fn the_lines_of_a_book() {
    let mut bad = base_unit(13, 0);
    bad.good[74] = false;
    let mut farthest = level_unit(false, 100_000, |t| if t == 2 { -100_000 } else { 100_000 });
    farthest.region = 4;
    let book = book_of(vec![
        numbered(0, level_unit(false, 10_000, |t| 10_000 + t - 1)),
        numbered(7, level_unit(true, 10_000, |t| 10_000 + t - 1)),
        numbered(9, level_unit(true, 55, |_| 55)),
        bad,
        numbered(65_535, farthest),
    ]);
    let wanted = "\
unit 0 0.0000 0.7400 0.7400 ▁▁▁▁▁▁▁▁▁▁▂▂▂▂▂▂▂▂▂▃▃▃▃▃▃▃▃▃▄▄▄▄▄▄▄▄▄▄▅▅▅▅▅▅▅▅▅▆▆▆▆▆▆▆▆▆▇▇▇▇▇▇▇▇▇██████████
unit 7 -0.7400 0.0000 -0.7400 ██████████▇▇▇▇▇▇▇▇▇▆▆▆▆▆▆▆▆▆▅▅▅▅▅▅▅▅▅▄▄▄▄▄▄▄▄▄▄▃▃▃▃▃▃▃▃▃▂▂▂▂▂▂▂▂▂▁▁▁▁▁▁▁▁▁▁
unit 9 0.0000 0.0000 0.0000 ▁▁▁▁▁▁▁▁▁▁▁▁▁▁▁▁▁▁▁▁▁▁▁▁▁▁▁▁▁▁▁▁▁▁▁▁▁▁▁▁▁▁▁▁▁▁▁▁▁▁▁▁▁▁▁▁▁▁▁▁▁▁▁▁▁▁▁▁▁▁▁▁▁▁▁
unit 13 bad
unit 65535 -2000.0000 0.0000 0.0000 █▁█████████████████████████████████████████████████████████████████████████
";
    assert_eq!(text_of(&book), wanted);
}

#[test]
fn the_lines_by_bits() {
    let mut bad = base_unit(9, 0);
    bad.good[0] = false;
    let spike = level_unit(false, 300, |t| if t == 75 { 200 } else { 300 });
    let book = book_of(vec![numbered(7, spike), bad]);
    let zeros = "00000000 ".repeat(74);
    let wanted = format!(
        "unit 7 drawn BF800000 00000000 BF800000\n{zeros}BF800000\nunit 9 bad 00000000 00000000 00000000\n"
    );
    assert_eq!(printed(&to_bytes(&book), Form::Bits), wanted);
}

#[test]
fn megawatts_with_four_decimals() {
    let cases = [
        (0, "0.0000"),
        (1, "0.0001"),
        (-1, "-0.0001"),
        (2, "0.0003"),
        (-2, "-0.0003"),
        (3, "0.0004"),
        (5, "0.0007"),
        (100, "0.0133"),
        (-100, "-0.0133"),
        (7_499, "0.9999"),
        (-7_499, "-0.9999"),
        (7_500, "1.0000"),
        (-7_500, "-1.0000"),
        (7_501, "1.0001"),
        (749_999, "99.9999"),
        (14_999_999, "1999.9999"),
        (15_000_000, "2000.0000"),
        (-15_000_000, "-2000.0000"),
    ];
    for (deviation, text) in cases {
        assert_eq!(in_megawatts(deviation), text, "{deviation}");
    }
    // Only 0 is shown as zero, so that no minus comes before one.
    for deviation in -20_011..=20_011 {
        let text = in_megawatts(deviation);
        assert_eq!(text == "0.0000", deviation == 0, "{deviation}");
        assert_eq!(text.starts_with('-'), deviation < 0, "{deviation}");
        assert_ne!(text, "-0.0000");
    }
}

#[test]
fn both_sides_of_each_level() {
    assert_eq!(level(-5, -5, -5), 0, "no shape");
    for deviation in 0..=7 {
        assert_eq!(level(deviation, 0, 7), deviation);
        assert_eq!(level(deviation - 100, -100, -93), deviation);
    }
    assert_eq!([0, 1].map(|deviation| level(deviation, 0, 1)), [0, 4]);
    assert_eq!([0, 1, 2].map(|deviation| level(deviation, 0, 2)), [0, 2, 5]);
    assert_eq!([0, 3, 6].map(|deviation| level(deviation, 0, 6)), [0, 3, 6]);
    for (deviation, wanted) in
        [(936, 0), (937, 0), (938, 1), (1_875, 1), (1_876, 2), (6_562, 6), (6_564, 7), (7_500, 7)]
    {
        assert_eq!(level(deviation, 0, 7_500), wanted, "{deviation}");
    }
    assert_eq!(level(-1, -FARTHEST, FARTHEST), 3);
    assert_eq!(level(1, -FARTHEST, FARTHEST), 4);
    assert_eq!(level(0, -FARTHEST, FARTHEST), 3);
    assert_eq!(level(FARTHEST, -FARTHEST, FARTHEST), 7);
}

/// Of a line the shape has 75 characters, the level 0 among them; the three numbers are those of the deviations.
#[test]
fn every_line_is_of_the_unit_s_deviations() {
    for (class, _) in CLASSES {
        let book = make(9, class, Some(76)).expect("a class");
        let text = text_of(&book);
        assert_eq!(text.lines().count(), 76, "{class}");
        for (line, unit) in text.lines().zip(&book.units) {
            if !unit_is_good(unit) {
                assert_eq!(line, format!("unit {} bad", unit.number));
                continue;
            }
            let words: Vec<&str> = line.split(' ').collect();
            let &[_, number, low, high, last, shape] = &words[..] else { panic!("{line}") };
            assert_eq!(number, unit.number.to_string());
            let megawatts: Vec<f64> = [low, high, last].iter().map(|word| word.parse().unwrap()).collect();
            let (_, three) = drawn(unit);
            for (shown, bits) in megawatts.iter().zip([three.lowest, three.highest, three.last]) {
                assert!((shown - f64::from(f32::from_bits(bits))).abs() < 0.000_15, "{line}");
            }
            assert_eq!(shape.chars().count(), 75);
            assert!(shape.contains('▁') && shape.chars().all(|block| ('▁'..='█').contains(&block)));
        }
    }
}

/// Points that request R-3 drops are drawn: the frequencies say nothing of a strip.
#[test]
fn frequencies_and_settings_are_not_looked_at() {
    for class in ["runs", "swings", "groups", "unreliable"] {
        let book = make(5, class, Some(13)).expect("a class");
        let mut other = book.clone();
        other.frequencies = (0..REGIONS).map(base_frequency).collect();
        other.settings = base_book().settings;
        for form in [Form::Text, Form::Bits] {
            assert_eq!(printed(&to_bytes(&book), form), printed(&to_bytes(&other), form), "{class}");
        }
    }
}

/// The book is taken whole first: one that is refused at its end, or for a unit's neighbours, prints the refusal alone.
#[test]
fn a_refused_book_is_told_as_settle_tells_it() {
    let bytes = to_bytes(&listing_book());
    let mut twice = listing_book();
    twice.units[1].number = twice.units[0].number;
    let mut split = listing_book();
    (split.units[0].group, split.units[1].group) = (3, 3);
    let mut wrong = listing_book();
    wrong.units[1].readings[16] = 100_001;
    let mut with_another_set = listing_book();
    with_another_set.requirements[0].region_set = 32;
    let cases = [
        (Vec::new(), "refused 1 0 0\n"),
        (bytes[..2_671].to_vec(), "refused 1 1 0\n"),
        ([bytes.clone(), vec![0]].concat(), "refused 4 1 0\n"),
        (to_bytes(&twice), "refused 9 2 0\n"),
        (to_bytes(&split), "refused 16 2 0\n"),
        (to_bytes(&wrong), "refused 84 2 17\n"),
        (to_bytes(&with_another_set), "refused 10 1 0\n"),
    ];
    for (bytes, said) in cases {
        assert_eq!(settle(&bytes), said);
        for form in [Form::Text, Form::Bits] {
            assert_eq!(printed(&bytes, form), said);
        }
    }
}

#[test]
fn a_book_without_units_prints_nothing() {
    let bytes = to_bytes(&book_of(Vec::new()));
    assert!(settle(&bytes).starts_with("interval"));
    assert_eq!(printed(&bytes, Form::Text), "");
    assert_eq!(printed(&bytes, Form::Bits), "");
}

#[test]
fn one_argument_is_known() {
    let words = |words: &[&str]| words.iter().map(|word| word.to_string()).collect::<Vec<_>>();
    assert_eq!(form_of(&[]), Some(Form::Text));
    assert_eq!(form_of(&words(&["bits"])), Some(Form::Bits));
    for wrong in wrong_arguments() {
        assert_eq!(form_of(&words(&wrong)), None, "{wrong:?}");
    }
}

#[test]
fn a_line_of_the_script_is_read_back() {
    let mut lines = BTreeSet::new();
    for nth in 0..1_003 {
        let (_, call) = call(3, nth);
        let line = line_of(&call);
        assert_eq!(call_in(&line).as_ref(), Some(&call));
        lines.insert(line);
    }
    assert!(lines.len() >= 950, "{} different lines", lines.len());
    let nothing = Call { part: Vec::new(), lent: EXACT };
    assert_eq!(line_of(&nothing), "- 75 3 1");
    assert_eq!(answer_line("- 0 1 2"), "refused 12 0 0 points 40490FDB 40490FDC 40490FDD strip 3FC00000 3FC00001 3FC00002 3FC00003 drawn 7 8 9 10 11");
    for line in ["", "-", "- 75 3", "- 75 3 1 ", "0 75 3 1", "0g 75 3 1", "- 75 3 -1"] {
        assert_eq!(answer_line(line), "bad line", "{line}");
    }
}

/// Of a unit on its set point the whole answer: positive zeros, 75, and what stands behind.
#[test]
fn a_line_of_the_model() {
    let call = Call { part: record_of(&level_unit(true, 3, |_| 3)), lent: EXACT };
    let points = " 00000000".repeat(75);
    let wanted = format!(
        "drawn points{points} 40491026 40491027 40491028 strip 00000000 00000000 00000000 3FC00003 3FC00004 3FC00005 drawn 75 8 9 10"
    );
    assert_eq!(answer(&call), wanted);
}

/// The answers that the script has, and how often: each of them, 84 at every t, and 12 with what would be 1, 8x, bad or drawn.
#[test]
fn the_script_meets_every_answer() {
    let mut met: BTreeMap<String, u64> = BTreeMap::new();
    let mut behind_12: BTreeMap<String, u64> = BTreeMap::new();
    let mut ts = BTreeSet::new();
    let outcome = |reply: &str| reply.split(' ').take(2).collect::<Vec<_>>().join(" ");
    for nth in 0..20_003 {
        let (_, call) = call(2_026, nth);
        let (reply, _) = made_of(&call);
        *met.entry(outcome(&reply)).or_default() += 1;
        if reply.starts_with("refused 84") {
            ts.insert(reply.rsplit(' ').next().expect("t").to_string());
        }
        if reply == "refused 12 0 0" {
            let (otherwise, _) = made_of(&Call { lent: EXACT, ..call });
            *behind_12.entry(outcome(&otherwise)).or_default() += 1;
        }
    }
    let wanted =
        ["bad", "drawn", "refused 1", "refused 12", "refused 81", "refused 82", "refused 83", "refused 84"];
    assert_eq!(met.keys().map(String::as_str).collect::<Vec<_>>(), wanted);
    assert!(met.values().all(|&count| count >= 400), "{met:?}");
    assert_eq!(ts.len(), 75);
    let wanted = ["bad", "drawn", "refused 1", "refused 81", "refused 82", "refused 83", "refused 84"];
    assert_eq!(behind_12.keys().map(String::as_str).collect::<Vec<_>>(), wanted);
    assert!(behind_12.values().all(|&count| count >= 20), "{behind_12:?}");
}

/// The lists and the parts of the script, on both sides of each edge.
#[test]
fn the_script_meets_every_length() {
    let mut met: [BTreeSet<usize>; 4] = Default::default();
    for nth in 0..20_003 {
        let (_, Call { part, lent }) = call(2_026, nth);
        for (lengths, length) in met.iter_mut().zip([part.len(), lent.points, lent.strip, lent.drawn]) {
            lengths.insert(length);
        }
    }
    for (lengths, wanted) in
        met.iter().zip([&[0, 1, 371, 372, 373][..], &[0, 1, 74, 75, 76, 80], &[0, 2, 3, 4], &[0, 1, 2]])
    {
        assert!(wanted.iter().all(|length| lengths.contains(length)), "{lengths:?}");
    }
}

/// The units of the script that are drawn: of both kinds, in a group and not, of every class, with each specimen either way, at the
/// farthest, of one sign, on the set point and with one spike.
#[test]
fn the_script_meets_every_sort_of_unit() {
    let mut deviations = BTreeSet::new();
    let mut sorts: BTreeMap<String, u64> = BTreeMap::new();
    for nth in 0..20_003 {
        let (kind, Call { part, lent }) = call(2_026, nth);
        let Ok(Trend::Drawn(points, three)) = trend(&part, lent) else { continue };
        let unit = second::book::read_unit(&part, None).expect("a unit");
        let all = unit_deviations(&unit);
        deviations.extend(all);
        let mut count = |sort: String| *sorts.entry(sort).or_default() += 1;
        count(format!("{kind}, load {}, group {}", unit.load, unit.group != 0));
        let different: BTreeSet<i128> = all.into_iter().collect();
        if different.len() == 2 && all.iter().filter(|&&away| away != 0).count() == 1 {
            count(format!("spike, load {}", unit.load));
        }
        if points == [0; POINTS] {
            count(format!("on set point, load {}", unit.load));
        }
        if rank(three.highest) < 0 {
            count("all negative".to_string());
        }
        if rank(three.lowest) > 0 {
            count("all positive".to_string());
        }
    }
    for specimen in SPECIMENS.into_iter().flat_map(|size| [-size, size]) {
        assert!(deviations.contains(&specimen), "{specimen}");
    }
    let megawatts = deviations.iter().filter(|&&deviation| deviation % 7_500 == 0).count();
    assert!(megawatts >= 3_001 && deviations.len() >= 150_001, "{megawatts} of {}", deviations.len());
    for load in [false, true] {
        for sort in ["spike", "on set point"] {
            assert!(sorts[&format!("{sort}, load {load}")] >= 101, "{sorts:?}");
        }
        for group in [false, true] {
            for kind in ["made", "shaped", "longer-lists"] {
                assert!(sorts[&format!("{kind}, load {load}, group {group}")] >= 41, "{sorts:?}");
            }
        }
    }
    assert!(sorts["all negative"] >= 101 && sorts["all positive"] >= 101, "{sorts:?}");
}

/// Units of every class of books come whole, of the grouped ones in a group.
#[test]
fn units_of_every_class_are_drawn() {
    for (class, _) in CLASSES {
        let mut chance = Chance::new(4);
        let units: Vec<Unit> = (0..301).map(|_| unit_of_class(&mut chance, class)).collect();
        for load in [false, true] {
            assert!(units.iter().any(|unit| unit.load == load), "{class}");
        }
        assert!(units.iter().any(unit_is_good), "{class}");
        assert_eq!(units.iter().any(|unit| unit.group != 0), GROUPED.contains(&class), "{class}");
    }
}

/// Two faults of every two sorts in one record, each as the first in the record and as the last.
#[test]
fn pairs_of_faults_are_told_by_the_first() {
    let number = |fault: Fault| match fault {
        Fault::Region | Fault::Kind | Fault::Start | Fault::End => 81,
        Fault::Default => 82,
        Fault::Spare => 83,
        Fault::GoodReading | Fault::BadReading => 84,
        Fault::Bad => 255,
    };
    let mut chance = Chance::new(5);
    for one in FAULTS {
        for other in FAULTS {
            for (t_one, t_other) in [(1, 75), (75, 1), (8, 9), (9, 8), (37, 38)] {
                let mut record = record_of(&shaped_unit(&mut chance));
                put_fault(&mut chance, &mut record, one, t_one);
                put_fault(&mut chance, &mut record, other, t_other);
                let (first, t) = (number(one), t_one).min((number(other), t_other));
                match trend(&record, EXACT) {
                    Ok(trend) => assert_eq!((trend, first), (Trend::Bad, 255)),
                    Err(refusal) => {
                        assert_eq!(
                            Some(refusal),
                            at(first, if first == 84 { t } else { 0 }),
                            "{one:?} {other:?}"
                        );
                    }
                }
            }
        }
    }
}

/// The books of `compare`: each roster in each sort of book, drawn and bad units, and refusals of many numbers.
#[test]
fn the_books_of_compare_reach_what_they_should() {
    let mut rosters: BTreeMap<String, BTreeSet<usize>> = BTreeMap::new();
    let mut numbers = BTreeSet::new();
    for nth in 0..301 {
        let trial = book_trial(11, nth);
        let sort = trial.name.rsplit('-').next().expect("a sort").to_string();
        let text = printed(&trial.bytes, Form::Text);
        match text.strip_prefix("refused ") {
            Some(rest) => {
                assert_eq!(sort, "damaged");
                numbers.insert(rest.split(' ').next().expect("a number").to_string());
            }
            None => {
                rosters.entry(sort).or_default().insert(text.lines().count());
            }
        }
    }
    for sort in ["made", "shapes"] {
        assert_eq!(rosters[sort], BTreeSet::from(ROSTERS), "{sort}");
    }
    for number in ["1", "3", "4", "6", "10", "74", "81", "84"] {
        assert!(numbers.contains(number), "{numbers:?}");
    }
}

fn run(program: &str, words: &[&str], input: &[u8]) -> Output {
    let mut child = Command::new(program)
        .args(words)
        .stdin(Stdio::piped())
        .stdout(Stdio::piped())
        .stderr(Stdio::piped())
        .spawn()
        .expect("a program");
    // A program that ends before it has read all is told by what it printed.
    let _ = child.stdin.take().expect("its input").write_all(input);
    child.wait_with_output().expect("its output")
}

#[test]
fn the_programs_print_what_they_should() {
    let trend = env!("CARGO_BIN_EXE_trend");
    let book = to_bytes(&make(8, "groups", Some(13)).expect("a class"));
    for (words, form) in [(&[][..], Form::Text), (&["bits"][..], Form::Bits)] {
        let ran = run(trend, words, &book);
        assert_eq!(ran.stdout, printed(&book, form).into_bytes());
        assert!(ran.stderr.is_empty() && ran.status.success());
        assert_eq!(run(trend, words, &book[..1_000]).stdout, b"refused 1 3 0\n");
    }
    for words in wrong_arguments() {
        let ran = run(trend, &words, &book);
        assert!(ran.stdout.is_empty(), "{words:?}");
        assert_eq!(ran.stderr, b"trend: the one argument is bits\n");
        assert_eq!(ran.status.code(), Some(1));
    }
    let script = run(env!("CARGO_BIN_EXE_strips"), &["script", "53", "7"], b"").stdout;
    let answers = run(env!("CARGO_BIN_EXE_strips"), &["model"], &script).stdout;
    let wanted: String = (0..53).map(|nth| format!("{}\n", answer(&call(7, nth).1))).collect();
    assert_eq!(answers, wanted.into_bytes());
}

/// `strips compare` in a folder of its own, with this command line in TREND.
fn compared(name: &str, trend: Option<&str>) -> (bool, String) {
    let dir = std::env::temp_dir().join(format!("strips-{}-{name}", std::process::id()));
    fs::create_dir_all(&dir).expect("a folder");
    let mut command = Command::new(env!("CARGO_BIN_EXE_strips"));
    command.args(["compare", "31"]).current_dir(&dir).env_remove("TREND");
    let ran = command.envs(trend.map(|trend| ("TREND", trend))).output().expect("a program");
    fs::remove_dir_all(&dir).expect("the folder");
    (ran.status.success(), String::from_utf8_lossy(&ran.stdout).into_owned())
}

/// Where the library's program is not there, nothing passes; held against itself it agrees, and a wrong one does not.
#[test]
fn compare_tells_a_wrong_program() {
    let (fine, said) = compared("missing", None);
    assert!(!fine && said.starts_with("strips: target/bin/trend is not there"), "{said}");
    let (fine, said) = compared("right", Some(env!("CARGO_BIN_EXE_trend")));
    assert!(fine && said.ends_with("strips: 76 passed, 0 failed\n"), "{said}");
    let (fine, said) = compared("wrong", Some(env!("CARGO_BIN_EXE_settle")));
    assert!(!fine && said.contains("FAILED 2026-0-made") && said.contains("FAILED arguments"), "{said}");
}
