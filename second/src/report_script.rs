//! Scripts of calls of the performance report's doors (request R-11): rows from numbers, rows read
//! back, rows of taken books. A seed and a turn name a few lines. And every end of a month, both
//! ways.

use std::io::{self, Write};

use crate::book::Book;
use crate::boundary::*;
use crate::calendar::*;
use crate::chance::Chance;
use crate::damage::damage;
use crate::make::{make, CLASSES, GROUPED};
use crate::quantities::*;
use crate::report::*;
use crate::report_changes::*;
use crate::report_door::*;
use crate::report_lines::*;
use crate::report_words::*;
use crate::roster::grouped;
use crate::write::to_bytes;

type Lines = Vec<Line>;

const U32: i128 = u32::MAX as i128;

/// A text's length on a side of an edge; the row's own where there is a row.
fn text_length(chance: &mut Chance, row: Option<usize>) -> usize {
    let row = row.unwrap_or(chance.between(SHORTEST_ROW as i128, LONGEST_ROW as i128) as usize);
    let any = chance.place(SHORTEST_ROW + LONGEST_ROW);
    let edge = chance.pick(&[0, 1, 63, 64, 65, 105, 106, 107, 300, any]);
    chance.pick(&[row, row, row + 1, row - 1, LONGEST_ROW, edge])
}

fn row_line(chance: &mut Chance, call: RowCall) -> Lines {
    let length = text_length(chance, call.row_length());
    vec![Line::Row(call, length)]
}

fn row(chance: &mut Chance) -> Lines {
    let call = draw_row(chance);
    row_line(chance, call)
}

/// An interval of any 32 bits, often next to the last one.
fn late_row(chance: &mut Chance) -> Lines {
    let any = chance.between(0, U32);
    let interval = chance.pick(&[LAST_INTERVAL, LAST_INTERVAL + 1, LAST_INTERVAL + 2, U32, any]);
    let call = RowCall { interval, ..draw_row(chance) };
    row_line(chance, call)
}

/// One number or two over their width, or just within it; the interval and the text may be wrong
/// besides.
fn wide_row(chance: &mut Chance) -> Lines {
    let mut call = draw_row(chance);
    for _ in 0..chance.pick(&[1, 1, 2]) {
        let over = chance.pick(&[65_535, 65_536, 65_537, 131_071, 1 << 31, U32]);
        let flag = chance.pick(&[1, 2, 3, 256, 65_536, U32]);
        let region = chance.pick(&[4, 5, 6, 255, 256, 65_535, 65_536, U32]);
        match chance.place(5) {
            0 => call.number = if call.residual == 1 { region } else { over },
            1 => call.version = over,
            2 => call.residual = flag,
            3 => call.raise_type = flag,
            _ => call.lower_type = flag,
        }
    }
    if chance.one_in(3) {
        call.interval = chance.pick(&[LAST_INTERVAL + 1, U32]);
    }
    row_line(chance, call)
}

/// As many numbers as are needed, or on a side of that.
fn numbers_length(chance: &mut Chance) -> usize {
    chance.pick(&[8, 8, 8, 8, 9, 7, 0, 1, 16])
}

fn read(chance: &mut Chance) -> Lines {
    let row = any_row(chance);
    vec![Line::Read(numbers_length(chance), row)]
}

/// Changed once or several times.
fn read_changed(chance: &mut Chance) -> Lines {
    let mut row = any_row(chance);
    for _ in 0..chance.pick(&[1, 1, 2, 3]) {
        if row.is_empty() {
            break;
        }
        let way = chance.pick(&Way::ALL);
        let place = chance.place(row.len());
        row = change(chance, &row, way, place);
    }
    vec![Line::Read(numbers_length(chance), row)]
}

/// The seven columns of a row, the last one with its line feed.
fn columns_of(row: &[u8]) -> Vec<Vec<u8>> {
    row.splitn(7, |&byte| byte == b',').map(<[u8]>::to_vec).collect()
}

fn joined(columns: &[Vec<u8>]) -> Vec<u8> {
    columns.join(&b","[..])
}

/// One column wrong, or two of them, by words that are nearly right.
fn read_wrong(chance: &mut Chance) -> Lines {
    let mut columns = columns_of(&any_row(chance));
    for _ in 0..chance.pick(&[1, 1, 2]) {
        let place = chance.place(columns.len());
        columns[place] = chance.pick(wrong_words(place + 1)).as_bytes().to_vec();
    }
    vec![Line::Read(8, joined(&columns))]
}

/// Columns left out, doubled or exchanged.
fn read_moved(chance: &mut Chance) -> Lines {
    let mut columns = columns_of(&any_row(chance));
    let [one, other] = [chance.place(7), chance.place(7)];
    match chance.place(5) {
        0 => columns.truncate(one),
        // It stops there with a line feed, which stands in a column that is not the last.
        1 => {
            columns.truncate(one + 1);
            columns[one].push(b'\n');
        }
        2 => columns.swap(one, other),
        3 => columns.insert(one, columns[other].clone()),
        _ => {
            columns.remove(one);
        }
    }
    vec![Line::Read(8, joined(&columns))]
}

/// Bytes of any kind, commas and line feeds among them; or more than one row.
fn read_loose(chance: &mut Chance) -> Lines {
    let mut bytes = any_row(chance);
    if chance.one_in(3) {
        bytes.extend(any_row(chance));
        return vec![Line::Read(8, bytes)];
    }
    let length = chance.pick(&[0, 1, 2, 64, 106, 107, 300]);
    bytes = (0..length).map(|_| chance.draw() as u8).collect();
    for _ in 0..chance.place(8) {
        if !bytes.is_empty() {
            let place = chance.place(bytes.len());
            bytes[place] = chance.pick(b",,,\n0");
        }
    }
    vec![Line::Read(numbers_length(chance), bytes)]
}

/// A book of any class, with groups one in three times; its interval is mostly before the year
/// 10,000.
fn script_book(chance: &mut Chance) -> Book {
    let (any, _) = chance.pick(&CLASSES);
    let grouped = chance.pick(&GROUPED);
    let class = chance.pick(&[any, any, grouped]);
    let roster = chance.pick(&[0, 1, 2, 3, 5, 7, 13]);
    let large = chance.pick(&[40, 76, 512]);
    let roster = if chance.one_in(25) { large } else { roster };
    let mut book = make(chance.draw(), class, Some(roster)).expect("a class of the list");
    book.requirements.truncate(chance.pick(&[1, 2, 32]));
    book.settings.interval = draw_interval(chance);
    if chance.one_in(6) {
        book.settings.interval = chance.pick(&[LAST_INTERVAL, LAST_INTERVAL + 1, U32]);
    }
    book
}

/// A row of a book that is asked: any, the ends, or past the last.
fn place_asked(chance: &mut Chance, rows: usize) -> i128 {
    let rows = rows as i128;
    let any = chance.between(0, rows - 1);
    let edge = chance.pick(&[0, rows - 6, rows - 5, rows - 1, rows, rows + 1, 65_536, U32]);
    chance.pick(&[any, any, any, edge]).max(0)
}

fn version_asked(chance: &mut Chance) -> i128 {
    let drawn = draw_u16(chance);
    let over = chance.pick(&[65_536, 65_537, U32]);
    if chance.one_in(12) {
        over
    } else {
        drawn
    }
}

/// A text's length for a row of a taken book, told by the row's own where it has one.
fn report_line(chance: &mut Chance, lent: &Lent, place: i128, version: i128, changes: Vec<Change>) -> Line {
    let row = report_reply(lent, place, version, usize::MAX).ok();
    let length = text_length(chance, row.map(|text| text.len()));
    Line::Report(place, version, length, changes)
}

/// Numbers at both sides of the limits of what a report reads, and in between.
fn number_for(chance: &mut Chance, name: &str) -> i128 {
    let limits = [
        0,
        1,
        2,
        -1,
        9,
        10,
        11,
        255,
        GENERATION_LIMIT,
        GENERATION_LIMIT + 1,
        UNIT_DEFAULT_LOWEST,
        UNIT_DEFAULT_LOWEST - 1,
        PERFORMANCE_LIMIT,
        PERFORMANCE_LIMIT + 1,
        2 * PERFORMANCE_LIMIT,
        2 * PERFORMANCE_LIMIT + 1,
        -2 * PERFORMANCE_LIMIT - 1,
        RESIDUAL_DEFAULT_LOWEST,
        RESIDUAL_DEFAULT_LOWEST - 1,
        i64::MIN as i128,
        i64::MAX as i128,
    ];
    let &(_, lowest, highest) = NAMES.iter().find(|(known, ..)| *known == name).expect("a list");
    let any = chance.between(lowest, highest);
    let small = chance.any_size(highest);
    let limit = chance.pick(&limits).clamp(lowest, highest);
    chance.pick(&[limit, limit, limit, any, small])
}

/// A list one short, empty or longer, or one number of a list another.
fn draw_change(chance: &mut Chance, lent: &Lent) -> Option<Change> {
    let name = chance.pick(&REPORT_LISTS);
    let list = lent.list(name);
    if chance.one_in(4) {
        let length = chance.pick(&[list.lent.saturating_sub(1), 0, list.lent + 1, list.lent + 2]);
        return Some(Change::Lend(name, length));
    }
    if list.lent == 0 {
        return None;
    }
    let place = chance.place(list.lent);
    Some(Change::Put(name, place, number_for(chance, name)))
}

/// Some rows of a taken book as they are, and some with a list or number changed.
fn report_lines(chance: &mut Chance, book: &Book, lent: &Lent) -> Lines {
    let rows = grouped(&book.units).len() + REGIONS;
    let mut lines = Vec::new();
    for place in 0..rows.min(20) {
        let version = draw_u16(chance);
        lines.push(report_line(chance, lent, place as i128, version, Vec::new()));
    }
    for _ in 0..20 {
        let count = chance.pick(&[0, 1, 1, 1, 1, 2]);
        let changes = (0..count).filter_map(|_| draw_change(chance, lent)).collect();
        let [place, version] = [place_asked(chance, rows), version_asked(chance)];
        lines.push(report_line(chance, lent, place, version, changes));
    }
    lines
}

/// A whole book, or one of which not all units are taken, or a damaged one; and rows of it.
fn book(chance: &mut Chance) -> Lines {
    let book = script_book(chance);
    let mut bytes = to_bytes(&book);
    let units_end = 1 + REGIONS + book.units.len();
    let records = match chance.place(12) {
        0 => units_end - 1,
        1 => units_end,
        2 => chance.place(units_end),
        _ => units_end + book.requirements.len(),
    };
    if chance.one_in(10) {
        bytes = damage(chance.draw(), &bytes);
    }
    let taken = Line::Book(records, bytes);
    let mut doors = ReportDoors::default();
    doors.answer(&taken);
    let mut lines = vec![taken];
    lines.extend(report_lines(chance, &book, &doors.lent));
    lines
}

type Maker = fn(&mut Chance) -> Lines;

const KINDS: [(&str, Maker); 22] = [
    ("row", row),
    ("row", row),
    ("row", row),
    ("row", row),
    ("row", row),
    ("row", row),
    ("late-row", late_row),
    ("wide-row", wide_row),
    ("wide-row", wide_row),
    ("read", read),
    ("read", read),
    ("read", read),
    ("read-changed", read_changed),
    ("read-changed", read_changed),
    ("read-wrong", read_wrong),
    ("read-wrong", read_wrong),
    ("read-wrong", read_wrong),
    ("read-wrong", read_wrong),
    ("read-moved", read_moved),
    ("read-moved", read_moved),
    ("read-loose", read_loose),
    ("book", book),
];

/// The lines of a turn, and their kind.
pub fn turn(seed: u64, nth: u64) -> (&'static str, Lines) {
    let (kind, maker) = KINDS[nth as usize % KINDS.len()];
    let mut chance = Chance::new(seed.wrapping_mul(0x1_0000_0001).wrapping_add(nth).wrapping_add(3 << 56));
    (kind, maker(&mut chance))
}

/// So many lines, turn by turn.
pub fn script(count: u64, seed: u64) -> impl Iterator<Item = (&'static str, Line)> {
    let turns = (0..).map(move |nth| turn(seed, nth));
    turns.flat_map(|(kind, lines)| lines.into_iter().map(move |line| (kind, line))).take(count as usize)
}

pub fn write_script(count: u64, seed: u64, out: &mut impl Write) -> io::Result<()> {
    script(count, seed).try_for_each(|(_, line)| writeln!(out, "{}", line_of(&line)))
}

/// Changed rows as calls that read them.
pub fn write_changed(count: u64, seed: u64, out: &mut impl Write) -> io::Result<()> {
    changed_rows(count, seed).try_for_each(|(_, row)| writeln!(out, "{}", line_of(&Line::Read(8, row))))
}

/// The times of a day at which its ends are tried, as intervals.
const TIMES: [(i128, &str); 3] = [(0, "00:00:00"), (1, "00:05:00"), (287, "23:55:00")];

/// A day both ways at three times: written by its number, read by its date. It is the day's number
/// that the caller has counted, so that neither way of the calendar is asked.
fn write_day(days: i128, date: Date, out: &mut impl Write) -> io::Result<()> {
    let Date { year, month, day } = date;
    for (time, clock) in TIMES {
        writeln!(out, "row {} 0 1 0 1 0 1 1 {SHORTEST_ROW}", INTERVALS_OF_A_DAY * days + time)?;
        let columns = "1,0.000000000,Default,0.000000000,Default,1\\0a";
        writeln!(out, "read 8 {day:02}/{month:02}/{year:04} {clock},{columns}")?;
    }
    Ok(())
}

/// The first and the last day of every month from one year to another, and the first day after
/// them.
pub fn write_dates(first: u32, last: u32, out: &mut impl Write) -> io::Result<()> {
    let mut days: i128 = (FIRST_YEAR..first).map(|year| i128::from(days_of_year(year))).sum();
    for year in first..=last {
        for month in 1..=MONTHS {
            let length = days_of_month(year, month);
            write_day(days, Date { year, month, day: 1 }, out)?;
            days += i128::from(length);
            write_day(days - 1, Date { year, month, day: length }, out)?;
        }
    }
    write_day(days, Date { year: last + 1, month: 1, day: 1 }, out)
}
