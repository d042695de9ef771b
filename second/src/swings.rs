//! Frequencies whose measure lags behind them, so that points are dropped (request R-3): swings across the band, both
//! edges of the band, long runs on the measure's own side, and regions where nothing is dropped beside them.

use crate::book::FrequencyRecord;
use crate::chance::Chance;
use crate::dropped::{BAND_HIGHEST, BAND_LOWEST};
use crate::make::steer;
use crate::measure::next_measure;
use crate::quantities::*;

#[derive(Clone, Copy, Debug, PartialEq, Eq)]
pub enum Swings {
    /// A wave that FM follows late.
    Wave,
    /// Frequencies at the edges of the band and next to them, FM brought to 0, 1 and -1 from outside.
    Band,
    /// Frequencies outside the band on the side of an FM that outlives them.
    Run,
    /// FM of one size, on the other side of every frequency: nothing is dropped.
    Calm,
}

/// The frequency so far from 50 Hz on the side of `sign`, as near as the limits let it.
fn away(sign: i128, size: i128) -> i128 {
    (FREQUENCY_NOMINAL + sign * size).clamp(FREQUENCY_LOWEST, FREQUENCY_HIGHEST)
}

fn either(chance: &mut Chance, sizes: &[i128]) -> i128 {
    chance.pick(&[1, -1]) * chance.pick(sizes)
}

/// From 0 up to 1,000, down to -1,000 and back to 0 in one period.
fn triangle(place: i128, period: i128) -> i128 {
    let quarter = 4_000 * place.rem_euclid(period) / period;
    match quarter {
        0..=1_000 => quarter,
        1_001..=3_000 => 2_000 - quarter,
        _ => quarter - 4_000,
    }
}

/// The next frequency, from the point and the FM before it.
type Course = Box<dyn FnMut(&mut Chance, usize, i128) -> i128>;

fn wave(chance: &mut Chance, smoothing: i128) -> Course {
    let period = chance.pick(&[6, 10, 15, 25, 40, 75]);
    // As high as FM has to go, and more for what the smoothing takes away of so short a wave.
    let reach = chance.pick(&[8_000, 15_000, 30_000, 100_000]);
    let height = (reach + reach * 62_832 / (period * smoothing)).min(MEASURE_LIMIT);
    let phase = chance.between(0, period - 1);
    let noise = chance.pick(&[0, 100, 5_000]);
    Box::new(move |chance, point, _| {
        let level = height * triangle(point as i128 + phase, period) / 1_000;
        away(1, level + chance.between(-noise, noise))
    })
}

fn band(smoothing: i128) -> Course {
    Box::new(move |chance, _, measure| {
        let sign = measure.signum();
        let kick = either(chance, &[10_001, 20_000, 60_000]);
        if sign == 0 || chance.one_in(10) {
            return steer(smoothing, measure, kick);
        }
        let next_to = chance.pick(&[-1, 0, 0, 1, 1, 1]);
        let [own, other] = match sign {
            1 => [BAND_HIGHEST + next_to, BAND_LOWEST - next_to],
            _ => [BAND_LOWEST - next_to, BAND_HIGHEST + next_to],
        };
        let small = chance.pick(&[0, 0, sign, -sign]);
        let to_small = steer(smoothing, measure, small);
        let nominal = away(1, chance.between(-1, 1));
        // FM that has become small is brought back on its side, so that its edge is met again.
        let back = steer(smoothing, measure, sign * kick.abs());
        let away_from_0 = if measure.abs() < 1_000 { back } else { own };
        chance.pick(&[own, own, own, away_from_0, away_from_0, other, to_small, nominal])
    })
}

fn run(chance: &mut Chance, smoothing: i128) -> Course {
    let turn_at = chance.pick(&[POINTS, 7, 20, 37, 37, 60]);
    let reach = chance.pick(&[15_001, 15_002, 30_000, 200_000]);
    let turned = chance.pick(&[30_000, 300_000, MEASURE_LIMIT]);
    Box::new(move |chance, point, measure| {
        let sign = if measure < 0 { -1 } else { 1 };
        if point == turn_at {
            return steer(smoothing, measure, -sign * turned);
        }
        away(sign, chance.between(15_001, reach))
    })
}

fn calm(chance: &mut Chance, smoothing: i128, first: i128) -> Course {
    let turn_at = chance.pick(&[POINTS, 7, 37, 37, 68]);
    Box::new(move |_, point, measure| {
        let target = if point < turn_at { first } else { -first };
        steer(smoothing, measure, target)
    })
}

/// FM before the interval, and a frequency for each good point of the record.
pub fn draw(chance: &mut Chance, style: Swings, smoothing: i128, record: &mut FrequencyRecord) {
    record.measure_before = match style {
        Swings::Wave => either(chance, &[0, 1, 10_001, 30_000, 100_000]),
        Swings::Band => either(chance, &[0, 1, 16_000, 30_000, 60_000]),
        Swings::Run => either(chance, &[30_000, 100_000, 1_000_000, MEASURE_LIMIT]),
        Swings::Calm => either(chance, &[10_001, 20_000, 40_000]),
    };
    let mut measure = record.measure_before;
    let mut course = match style {
        Swings::Wave => wave(chance, smoothing),
        Swings::Band => band(smoothing),
        Swings::Run => run(chance, smoothing),
        Swings::Calm => calm(chance, smoothing, measure),
    };
    record.frequencies = [0; POINTS];
    for point in (0..POINTS).filter(|&point| record.good[point]) {
        let frequency = course(chance, point, measure);
        measure = next_measure(smoothing, measure, frequency);
        record.frequencies[point] = frequency;
    }
}
