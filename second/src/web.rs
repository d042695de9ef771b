//! What the page of web/ shows: of each screen the four lines, of a refused book number, place and t, of a member the strip of each of its units, by bits, as
//! words and as the pixels of its canvas. And the product that the page's module has a function of its own for.

use std::ffi::OsString;
use std::io;

use crate::book::{read_book, Book, Unit};
use crate::chance::Chance;
use crate::quantities::POINTS;
use crate::roster::by_member;
use crate::strip::{trend_of, Bits, SmallRecord, Trend};
use crate::strip_text::hex_of;
use crate::watch::{printed, watch, Screen, Sort};

/// A canvas: pixels from point to point, around the points, of the whole height, and from a point's middle to its edge.
struct Layout {
    step: i64,
    margin: i64,
    height: i64,
    dot: i64,
}

/// A unit that is a member by itself, the units of a group of up to 16, those of a larger one.
fn layout_for(units: usize) -> Layout {
    match units {
        1 => Layout { step: 16, margin: 20, height: 280, dot: 3 },
        2..=16 => Layout { step: 8, margin: 16, height: 144, dot: 2 },
        _ => Layout { step: 4, margin: 8, height: 72, dot: 1 },
    }
}

fn value_of(bits: Bits) -> f64 {
    f64::from(f32::from_bits(bits))
}

impl Layout {
    fn width(&self) -> i64 {
        (POINTS as i64 - 1) * self.step + 2 * self.margin + 1
    }

    fn column(&self, point: usize) -> i64 {
        self.margin + self.step * point as i64
    }

    /// From above: the scale goes from the lowest to the highest, and on to zero; in the middle where both are zero.
    fn row(&self, value: f64, small: &SmallRecord) -> i64 {
        let (least, most) = (value_of(small.lowest).min(0.0), value_of(small.highest).max(0.0));
        let part = if most == least { 0.5 } else { (most - value) / (most - least) };
        self.margin + (part * (self.height - 1 - 2 * self.margin) as f64 + 0.5).floor() as i64
    }
}

/// With four decimals, halves away from zero: exact, since a binary32 times 10,000 is a binary64.
fn in_megawatts(bits: Bits) -> String {
    let parts = (value_of(bits).abs() * 10_000.0 + 0.5).floor() as i64;
    let sign = if value_of(bits) < 0.0 { "-" } else { "" };
    format!("{sign}{}.{:04} MW", parts / 10_000, parts % 10_000)
}

fn canvas(points: &[Bits; POINTS], small: &SmallRecord, layout: &Layout) -> String {
    let rows: Vec<i64> = points.iter().map(|&point| layout.row(value_of(point), small)).collect();
    let places = rows.iter().enumerate().map(|(point, row)| format!("{},{row}", layout.column(point)));
    let (zero, last, mark) = (layout.row(0.0, small), rows[POINTS - 1], 2 * layout.dot + 2);
    format!(
        "points {}\nsize {} {} dot {} zero {zero} mark {} {}\n",
        places.collect::<Vec<_>>().join(" "),
        layout.width(),
        layout.height,
        2 * layout.dot + 1,
        last - mark,
        last + mark,
    )
}

fn unit_shown(unit: &Unit, layout: &Layout) -> String {
    let trend = trend_of(unit);
    let small = trend.small_record();
    let three = [small.lowest, small.highest, small.last];
    match trend {
        Trend::Bad => format!("unit {} bad {}\nwords bad unit\n", unit.number, hex_of(&three)),
        Trend::Drawn(points, _) => {
            let [lowest, highest, last] = three.map(in_megawatts);
            let words = format!("words lowest {lowest} highest {highest} last {last}");
            let floats = format!("unit {} drawn {}\n{}\n", unit.number, hex_of(&three), hex_of(&points));
            format!("{floats}{}{words}\n", canvas(&points, &small, layout))
        }
    }
}

/// The strips of the member on show, whose first unit's number stands on its first line.
fn strips(book: &Book, screen: &Screen) -> String {
    let Sort::Member { residual: false, .. } = screen.sort else { return String::new() };
    let name = screen.text[..20].split_whitespace().nth(1).expect("a unit's number");
    let number: i128 = name.parse().expect("a number");
    let units = by_member(&book.units).find(|units| units[0].number == number).expect("a member");
    units.iter().map(|unit| unit_shown(unit, &layout_for(units.len()))).collect()
}

/// All screens of a book, the first one and one for each key, each behind a line with the book's name.
pub fn shown(name: &str, file: &OsString, bytes: &[u8], keys: &[u8]) -> io::Result<String> {
    let book = read_book(bytes);
    let mut out = String::new();
    watch(std::slice::from_ref(file), keys.iter().copied(), |screen| {
        out += &format!("screen {name}\n");
        out += std::str::from_utf8(&printed(screen, false)).expect("ASCII");
        match &book {
            Ok(book) => out += &strips(book, screen),
            Err(refusal) => out += &format!("refused {refusal}\n"),
        }
        Ok(())
    })?;
    Ok(out)
}

/// Words at the edges of 32 and 64 bits.
const EDGES: [u64; 10] = [
    0,
    1,
    2,
    u32::MAX as u64 - 1,
    u32::MAX as u64,
    1 << 32,
    (1 << 32) + 1,
    i64::MAX as u64,
    u64::MAX - 1,
    u64::MAX,
];

fn joined(low: u64, high: u64) -> u128 {
    u128::from(high) << 64 | u128::from(low)
}

/// The halves of two words of 128 bits, the low one first: every edge with every other, then random ones.
pub fn factors(random: u64, seed: u64) -> Vec<[u64; 4]> {
    let edges = EDGES.len();
    let edge = |nth: usize| [0, 1, 2, 3].map(|half| EDGES[nth / edges.pow(half) % edges]);
    let mut chance = Chance::new(seed);
    let mut all: Vec<[u64; 4]> = (0..edges.pow(4)).map(edge).collect();
    all.extend((0..random).map(|_| [0; 4].map(|_| chance.draw())));
    all
}

/// The product's halves, modulo 2^128.
pub fn product([a, a_high, b, b_high]: [u64; 4]) -> [u64; 2] {
    let product = joined(a, a_high).wrapping_mul(joined(b, b_high));
    [product as u64, (product >> 64) as u64]
}
