//! What rows of trials are made of (request R-11): intervals, performances and versions around
//! their edges, and words that are wrong in a column, each nearly right.

use crate::chance::Chance;
use crate::quantities::*;
use crate::report::*;
use crate::report_door::RowCall;

/// Intervals at the edges: of a day, of February in years of every sort, and of the calendar.
pub const INTERVALS: [i128; 16] = [
    0,
    1,
    11,
    12,
    287,
    288,
    16_991,
    16_992,
    2_266_910,
    10_535_904,
    10_536_191,
    10_536_192,
    42_092_928,
    841_518_432,
    LAST_INTERVAL - 1,
    LAST_INTERVAL,
];

/// One before the year 10,000, often at an edge.
pub fn draw_interval(chance: &mut Chance) -> i128 {
    let edge = chance.pick(&INTERVALS);
    let any = chance.between(0, LAST_INTERVAL);
    let small = chance.any_size(LAST_INTERVAL);
    let midnight = any - any % INTERVALS_OF_A_DAY;
    chance.pick(&[edge, any, any, small, midnight, (midnight - 1).max(0)])
}

/// A performance near the one that is so many billionths, where its digits turn over.
fn near_billionths(chance: &mut Chance, billionths: i128) -> i128 {
    nearest(15 * billionths, 2) + chance.between(-8, 8)
}

fn power_of_ten(chance: &mut Chance, highest: u32) -> i128 {
    10_i128.pow(chance.between(0, i128::from(highest)) as u32)
}

/// Any that a signed 64-bit number can be.
pub fn draw_performance(chance: &mut Chance) -> i128 {
    let (lowest, highest) = (i128::from(i64::MIN), i128::from(i64::MAX));
    let power = power_of_ten(chance, 18);
    let drawn = match chance.place(8) {
        0 => chance.between(-20, 20),
        1 => chance.pick(&[lowest, lowest + 1, highest, highest - 1, lowest + 8, highest - 8]),
        2 => near_billionths(chance, power),
        3 => near_billionths(chance, 1_000_000_000 * (power % 1_000_000_007)),
        4 => chance.between(lowest, highest),
        _ => chance.any_size(highest),
    };
    let turned = if chance.one_in(2) { -drawn } else { drawn };
    turned.clamp(lowest, highest)
}

/// A number of 16 bits, of any count of digits.
pub fn draw_u16(chance: &mut Chance) -> i128 {
    let edge = chance.pick(&[0, 1, 9, 10, 99, 100, 999, 1_000, 9_999, 10_000, 65_534, 65_535]);
    let any = chance.between(0, 65_535);
    chance.pick(&[edge, any])
}

/// The numbers of a row that can be written.
pub fn draw_row(chance: &mut Chance) -> RowCall {
    let residual = i128::from(chance.one_in(3));
    RowCall {
        interval: draw_interval(chance),
        residual,
        number: if residual == 1 { chance.between(0, 4) } else { draw_u16(chance) },
        raise: draw_performance(chance),
        raise_type: chance.between(0, 1),
        lower: draw_performance(chance),
        lower_type: chance.between(0, 1),
        version: draw_u16(chance),
    }
}

const DATES: [&str; 40] = [
    "",
    " ",
    "29/02/2100 00:00:00",
    "29/02/2001 00:05:00",
    "30/02/2000 00:00:00",
    "31/04/2024 12:00:00",
    "31/11/9999 23:55:00",
    "32/01/2000 00:00:00",
    "00/01/2000 00:00:00",
    "01/00/2000 00:00:00",
    "01/13/2000 00:00:00",
    "31/12/1999 23:55:00",
    "01/01/1999 00:00:00",
    "01/01/0000 00:00:00",
    "01/01/10000 00:00:00",
    "01/01/12000 00:00:00",
    "01/01/2000 24:00:00",
    "31/12/9999 24:00:00",
    "01/01/2000 00:60:00",
    "01/01/2000 00:01:00",
    "01/01/2000 00:04:00",
    "01/01/2000 00:59:00",
    "01/01/2000 00:00:01",
    "01/01/2000 00:00:60",
    "01/01/2000 00:00:30",
    "1/1/2000 00:00:00",
    "01/01/00 00:00:00",
    "2000/01/01 00:00:00",
    "01-01-2000 00:00:00",
    "01/01/2000T00:00:00",
    "01/01/2000 00.00.00",
    "01/01/2000 00:00",
    "01/01/2000",
    "01/01/2000 0:00:00",
    "01/01/2000  00:00:00",
    " 01/01/2000 00:00:00",
    "01/01/2000 00:00:00 ",
    "01/01/2000 00:00:00\n",
    "+1/01/2000 00:00:00",
    "01/01/2000 -1:00:00",
];

const UNITS: [&str; 35] = [
    "",
    " ",
    "00",
    "01",
    "007",
    "000",
    "65536",
    "65540",
    "70000",
    "99999",
    "065535",
    "100000",
    "4294967296",
    "18446744073709551617",
    "+1",
    "-0",
    "-1",
    " 1",
    "1 ",
    "1.0",
    "1\n",
    "0x1",
    "DUID1",
    "Residual",
    "Residual ",
    "residual QLD1",
    "RESIDUAL QLD1",
    "Residual  QLD1",
    "ResidualQLD1",
    "Residual QLD1 ",
    "Residual qld1",
    "Residual QLD",
    "Residual SA",
    "Residual WA1",
    "Residual 0",
];

const PERFORMANCES: [&str; 39] = [
    "",
    "-",
    ".",
    "0",
    "0.",
    "1",
    "-0.000000000",
    "+0.000000000",
    "+1.000000000",
    "--1.000000000",
    "- 1.000000000",
    "00.000000000",
    "01.000000000",
    "-01.500000000",
    "-00.450000000",
    ".450000000",
    "-.450000000",
    "0.45",
    "0.00000000",
    "0.0000000000",
    "0.98745404",
    "0.9874540490",
    "-1.55283307",
    "0.00000000a",
    "0.00000 001",
    "0.-00000001",
    "a.000000000",
    "1e3",
    "1.000000000e0",
    "0.000.000000",
    " 0.000000000",
    "0.000000000 ",
    "0.000000000\n",
    "1229782938.247303442",
    "-1229782938.247303442",
    "1229782939.000000000",
    "12297829380.247303441",
    "18446744073.709551616",
    "340282366920938463463374607431.768211457",
];

const TYPES: [&str; 16] = [
    "",
    " ",
    "calculated",
    "CALCULATED",
    "Calculate",
    "Calculated ",
    " Calculated",
    "Calculatedd",
    "Calculated\n",
    "default",
    "DEFAULT",
    "Defaul",
    "Defaults",
    " Default",
    "Live",
    "0",
];

const VERSIONS: [&str; 30] = [
    "",
    "\n",
    "1",
    "65535",
    "00\n",
    "01\n",
    "065535\n",
    "65536\n",
    "65545\n",
    "99999\n",
    "100000\n",
    "4294967297\n",
    "18446744073709551617\n",
    "-1\n",
    "-0\n",
    "+1\n",
    " 1\n",
    "1 \n",
    "1\r\n",
    "1\r",
    "1\n\n",
    "1\n ",
    "1\n1",
    "1\n1\n",
    "1,\n",
    "1,1\n",
    "1.0\n",
    "a\n",
    "1\0",
    "\n1",
];

/// Words that are wrong in a column, from 1 to 7.
pub fn wrong_words(column: usize) -> &'static [&'static str] {
    match column {
        1 => &DATES,
        2 => &UNITS,
        3 | 5 => &PERFORMANCES,
        4 | 6 => &TYPES,
        _ => &VERSIONS,
    }
}
