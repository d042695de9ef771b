//! The worked book of source document 000's table 15: the 75 frequencies that the market published for SA1, with
//! the measures that it made of them.

use crate::book::Book;
use crate::quantities::*;
use crate::write::base_book;

/// The column 'Region Freq. Deviation' of table 15, in µHz.
pub const DEVIATIONS: [i128; POINTS] = [
    8_000, 5_000, 41_500, 38_000, 20_750, 15_250, 19_250, 22_250, 30_250, 33_750, 33_750, 34_250, 23_750,
    8_000, 4_000, -4_000, 10_750, 14_750, -2_750, -18_750, -20_750, -7_500, 250, -7_000, -5_000, -4_250,
    7_750, 9_000, 3_500, -6_750, -14_750, -11_250, -750, 8_250, 16_250, 12_250, -13_000, -9_250, 19_400,
    17_000, -6_500, -11_750, -13_000, -11_750, -21_000, -30_750, -19_000, -8_250, -20_600, -19_000, 1_000,
    -2_250, -13_000, -15_250, -11_250, -2_250, 10_500, 15_500, 14_750, 7_000, 2_000, -500, 12_750, 23_750,
    29_250, 17_750, 1_000, -20_000, -19_500, -15_000, -11_000, -27_000, -26_250, -10_000, 3_000,
];

/// The points, t from 1, at which by the table's own columns deviation and measure have one sign and the deviation
/// is more than 0.015 Hz: read from the table by hand.
pub const DROPPED_BY_HAND: [usize; 3] = [20, 58, 68];

/// A book with these frequencies in region 3. The guide gives the first point the measure 0, which is a bad point here
/// with FM before 0, as in the vector `frequency_measure`; its alpha is 2/9, which is a 2,222.
pub fn frequencies_book() -> Book {
    let mut book = base_book();
    book.settings.smoothing = 2_222;
    let record = &mut book.frequencies[3];
    record.frequencies = DEVIATIONS.map(|deviation| FREQUENCY_NOMINAL + deviation);
    record.good[0] = false;
    record.frequencies[0] = 0;
    book
}
