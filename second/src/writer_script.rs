//! Calls of the book writer's door (request R-4), as a script, and what each of them replies and leaves. A seed and a
//! number name one call. The lines are described in README.md.

use std::io::{self, Write};

use crate::book::Book;
use crate::chance::Chance;
use crate::damage::damage;
use crate::limits;
use crate::make::{make, CLASSES};
use crate::write::to_bytes;
use crate::writer::*;
use crate::writer_fields::*;

/// The most bytes of a lent buffer that are there, however long it is told to be.
pub const ROOM: i128 = 1 << 18;
/// Bytes behind the lent buffer, which are not lent.
pub const BEHIND: i128 = 16;
/// What every byte of the buffer is before the call.
pub const BEFORE: u8 = 0xA5;

const SMALL: [usize; 8] = [0, 1, 1, 2, 3, 5, 7, 13];
const LARGE: [usize; 5] = [76, 477, 509, 511, 512];

fn chance_of(seed: u64, nth: u64) -> Chance {
    Chance::new(seed.wrapping_mul(0x1_0000_0001).wrapping_add(nth))
}

/// A made book of any class, small as a rule.
pub fn draw_book(chance: &mut Chance) -> Book {
    let (class, _) = chance.pick(&CLASSES);
    let roster = if chance.one_in(24) { chance.pick(&LARGE) } else { chance.pick(&SMALL) };
    make(chance.draw(), class, Some(roster)).expect("a class of the list")
}

fn honest(chance: &mut Chance) -> Given {
    values_of(&draw_book(chance))
}

/// A made book that is damaged in its records, its table, length and region numbers still right, and its values.
fn draw_damaged(chance: &mut Chance) -> (Vec<u8>, Given) {
    let bytes = to_bytes(&draw_book(chance));
    loop {
        let damaged = damage(chance.draw(), &bytes);
        if let Some(given) = values_in_bytes(&damaged).filter(|_| damaged != bytes) {
            return (damaged, given);
        }
    }
}

fn damaged(chance: &mut Chance) -> Given {
    draw_damaged(chance).1
}

/// One wrong field, mostly, of any record.
pub fn one_field(chance: &mut Chance, width: Width) -> Given {
    let mut given = honest(chance);
    let at = draw_record(chance, &given);
    spoil_value(chance, &mut given, at, width);
    given
}

/// Wrong fields in several records, either of which may come first.
pub fn several_fields(chance: &mut Chance, width: Width) -> Given {
    let mut given = honest(chance);
    for _ in 0..chance.pick(&[2, 2, 3, 5]) {
        let at = draw_record(chance, &given);
        spoil_value(chance, &mut given, at, width);
    }
    given
}

/// Wrong fields in one record, so that the order of the tests within it matters.
pub fn one_record(chance: &mut Chance, width: Width) -> Given {
    let mut given = honest(chance);
    let at = draw_record(chance, &given);
    for _ in 0..chance.pick(&[2, 2, 3, 4]) {
        spoil_value(chance, &mut given, at, width);
    }
    given
}

/// Two faults of different sorts in one record.
pub fn a_pair(chance: &mut Chance, _: Width) -> Given {
    let mut given = honest(chance);
    two_faults(chance, &mut given);
    given
}

/// Wrong groups, and often one more fault.
pub fn wrong_group(chance: &mut Chance, width: Width) -> Given {
    let mut given = honest(chance);
    if given.units < 2 {
        return one_field(chance, width);
    }
    let place = 1 + chance.place(given.units as usize - 1);
    for _ in 0..chance.pick(&[1, 1, 2]) {
        spoil_group(chance, &mut given, place);
    }
    if chance.one_in(3) {
        let at = draw_record(chance, &given);
        spoil_value(chance, &mut given, at, width);
    }
    given
}

pub fn wrong_points(chance: &mut Chance, width: Width) -> Given {
    let mut given = honest(chance);
    for _ in 0..chance.pick(&[1, 1, 1, 2, 5]) {
        spoil_series(chance, &mut given, width);
    }
    given
}

/// Any values, whole or with a wrong field.
fn any_values(chance: &mut Chance) -> Given {
    if chance.one_in(3) {
        one_field(chance, Width::Door)
    } else {
        honest(chance)
    }
}

/// A list that is told to be too short, by one mostly.
fn short_list(chance: &mut Chance) -> Given {
    let mut given = any_values(chance);
    let list = &mut given.lists[chance.place(LISTS)];
    list.length = chance.pick(&[list.length - 1, list.length - 1, list.length / 2, 0]).max(0);
    given
}

/// Lists with more numbers than are asked for, which are not to be looked at.
fn longer_lists(chance: &mut Chance) -> Given {
    let mut given = any_values(chance);
    for (place, list) in given.lists.iter_mut().enumerate() {
        for _ in 0..chance.pick(&[0, 0, 1, 1, 7, 75, 100]) {
            let number = match place {
                REGION_QUALITY | UNIT_QUALITY => chance.pick(&[0, 1, 255]),
                FREQUENCY_POINTS => chance.pick(&[0, 1, 50_000_000, 4_294_967_295]),
                READINGS => chance.pick(&[0, -1, 100_001, -2_147_483_648]),
                _ => chance.pick(&[0, -1, 5, i64::MAX.into(), i64::MIN.into()]),
            };
            list.numbers.push(number);
        }
        list.length = list.numbers.len() as i128;
    }
    given
}

/// A buffer one byte short, longer, or far off.
fn other_room(chance: &mut Chance) -> Given {
    let mut given = any_values(chance);
    let size = given.room;
    given.room =
        chance.pick(&[size - 1, size - 1, size - 24, size / 2, 0, size + 1, size + 24, size + 1_000]);
    given
}

/// A record fewer than the lists have.
fn fewer_records(chance: &mut Chance) -> Given {
    let mut given = any_values(chance);
    if given.units > 0 && chance.one_in(2) {
        given.units = chance.pick(&[given.units - 1, 0]);
    } else {
        given.requirements -= 1;
    }
    given
}

/// Lists and a buffer told to be as long as the counts ask.
fn tell_needed(given: &mut Given) {
    for (list, needed) in given.lists.iter_mut().zip(needed(given.units, given.requirements)) {
        list.length = list.length.max(needed);
    }
    given.room = given.room.max(book_size(given.units, given.requirements));
}

/// Lengths as a sum or product in 32 bits would have them.
fn tell_wrapped(given: &mut Given) {
    let wrapped = |length: i128| length % (1 << 32);
    for (list, needed) in given.lists.iter_mut().zip(needed(given.units, given.requirements)) {
        list.length = list.length.max(wrapped(needed));
    }
    given.room = given.room.max(wrapped(book_size(given.units, given.requirements)));
}

/// Counts past their limits: in lists and a buffer that would hold them, one of these short, or as they were. The first
/// past each limit has its numbers there; of the others no number may be looked at.
fn other_counts(chance: &mut Chance) -> Given {
    let mut given = any_values(chance);
    let far = [u32::MAX.into(), 65_536, 65_536 + given.units, 11_545_611, 357_913_942, 57_266_231, 1 << 31];
    let far = chance.pick(&far);
    let units = chance.pick(&[513, 513, 514, given.units + 1, far]);
    let requirements =
        chance.pick(&[0, 33, 33, 34, u32::MAX.into(), 65_536 + given.requirements, 178_956_971]);
    match chance.place(5) {
        0 | 1 => given.units = units,
        2 | 3 => given.requirements = requirements,
        _ => (given.units, given.requirements) = (units, requirements),
    }
    match chance.place(8) {
        0 => (),
        1 => tell_wrapped(&mut given),
        drawn => {
            tell_needed(&mut given);
            let list = chance.place(LISTS);
            match drawn {
                2 => given.room -= 1,
                3 => given.lists[list].length = (given.lists[list].length - 1).max(0),
                _ => (),
            }
        }
    }
    // A count that keeps its limit is read: its numbers have to be there.
    let there =
        needed(given.units.min(limits::UNITS.1 + 1), given.requirements.min(limits::REQUIREMENTS.1 + 1));
    for (list, there) in given.lists.iter_mut().zip(there) {
        list.numbers.resize(list.numbers.len().max(there as usize), 0);
    }
    given
}

fn room_or_fewer(chance: &mut Chance) -> Given {
    if chance.one_in(2) {
        other_room(chance)
    } else {
        fewer_records(chance)
    }
}

type Maker = fn(&mut Chance) -> Given;

/// The kinds of calls; a quarter of them has the values of damaged books.
const KINDS: [(&str, Maker); 16] = [
    ("honest", honest),
    ("damaged", damaged),
    ("damaged", damaged),
    ("damaged", damaged),
    ("damaged", damaged),
    ("field", |chance| one_field(chance, Width::Door)),
    ("pair", |chance| a_pair(chance, Width::Door)),
    ("fields", |chance| several_fields(chance, Width::Door)),
    ("record", |chance| one_record(chance, Width::Door)),
    ("group", |chance| wrong_group(chance, Width::Door)),
    ("group", |chance| wrong_group(chance, Width::Door)),
    ("points", |chance| wrong_points(chance, Width::Door)),
    ("short", short_list),
    ("longer", longer_lists),
    ("room", room_or_fewer),
    ("counts", other_counts),
];

/// The call of a number, and its kind.
pub fn call(seed: u64, nth: u64) -> (&'static str, Given) {
    let (kind, maker) = KINDS[nth as usize % KINDS.len()];
    (kind, maker(&mut chance_of(seed, nth)))
}

/// The damaged book whose values the call of this number has; None where the call is of another kind.
pub fn damaged_book(seed: u64, nth: u64) -> Option<Vec<u8>> {
    let (kind, _) = KINDS[nth as usize % KINDS.len()];
    (kind == "damaged").then(|| draw_damaged(&mut chance_of(seed, nth)).0)
}

/// A list in one word: its length, and its numbers; `TIMES*N` is the same number so many times.
fn list_word(list: &Lent) -> String {
    let runs = list.numbers.chunk_by(|one, next| one == next);
    let words: Vec<String> = runs
        .map(|run| if run.len() == 1 { run[0].to_string() } else { format!("{}*{}", run.len(), run[0]) })
        .collect();
    format!("{}:{}", list.length, words.join(","))
}

/// A call in one line.
pub fn line_of(given: &Given) -> String {
    let mut words: Vec<String> = given.settings.iter().map(i128::to_string).collect();
    words.extend([given.units, given.requirements, given.room].map(|number| number.to_string()));
    words.extend(given.lists.iter().map(list_word));
    words.join(" ")
}

fn list_in(word: &str) -> Option<Lent> {
    let (length, rest) = word.split_once(':')?;
    let mut numbers = Vec::new();
    for run in rest.split(',').filter(|run| !run.is_empty()) {
        let (times, number) = run.split_once('*').unwrap_or(("1", run));
        numbers.extend(std::iter::repeat_n(number.parse::<i128>().ok()?, times.parse().ok()?));
    }
    Some(Lent { length: length.parse().ok()?, numbers })
}

/// The call that a line says.
pub fn given_in(line: &str) -> Option<Given> {
    let words: Vec<&str> = line.split(' ').collect();
    let (numbers, lists) = words.split_at_checked(7)?;
    let numbers: Vec<i128> = numbers.iter().map(|word| word.parse().ok()).collect::<Option<_>>()?;
    let lists: Vec<Lent> = lists.iter().map(|word| list_in(word)).collect::<Option<_>>()?;
    let &[smoothing, limit, percent, interval, units, requirements, room] = &numbers[..] else {
        return None;
    };
    let settings = [smoothing, limit, percent, interval];
    Some(Given { settings, units, requirements, lists: lists.try_into().ok()?, room })
}

/// A sum that no moved or changed byte leaves as it was (FNV-1a).
fn checksum(bytes: &[u8]) -> u64 {
    let step = |sum: u64, &byte: &u8| (sum ^ u64::from(byte)).wrapping_mul(0x100_0000_01B3);
    bytes.iter().fold(0xCBF2_9CE4_8422_2325, step)
}

/// What the call replies, and the sum of the lent buffer after it with the bytes behind it.
pub fn answer(given: &Given) -> String {
    let mut buffer = vec![BEFORE; (given.room.min(ROOM) + BEHIND) as usize];
    match write(given) {
        Ok(bytes) => {
            buffer[..bytes.len()].copy_from_slice(&bytes);
            format!("written {} {:016x}", bytes.len(), checksum(&buffer))
        }
        Err(refusal) => format!("refused {refusal} {:016x}", checksum(&buffer)),
    }
}

/// What the call of a line replies and leaves.
pub fn answer_line(line: &str) -> String {
    given_in(line).map_or_else(|| "bad line".to_string(), |given| answer(&given))
}

pub fn write_calls(count: u64, seed: u64, out: &mut impl Write) -> io::Result<()> {
    (0..count).try_for_each(|nth| writeln!(out, "{}", line_of(&call(seed, nth).1)))
}
