//! Calls of the trend strip's door (request R-2), as a script, and what each of them replies and leaves. A seed and a number
//! name one call. The lines are described in README.md.

use std::io::{self, Write};

use crate::book::UNIT_SIZE;
use crate::chance::Chance;
use crate::damage::{spoil_once_or_twice, Kind};
use crate::make::CLASSES;
use crate::quantities::*;
use crate::records::hex_bytes;
use crate::strip::*;
use crate::strip_units::*;

/// What stands in the lent lists before the call, from the first element on.
pub const POINTS_BEFORE: Bits = 0x4049_0FDB;
pub const STRIP_BEFORE: Bits = 0x3FC0_0000;
pub const DRAWN_BEFORE: u32 = 7;
/// Elements behind each lent list, which are not lent.
pub const BEHIND: usize = 3;

/// Lists just as long as they have to be.
pub const EXACT: Lent = Lent { points: POINTS, strip: 3, drawn: 1 };
const POINTS_LENGTHS: [usize; 9] = [0, 1, 2, 73, 74, 75, 76, 77, 80];
const STRIP_LENGTHS: [usize; 6] = [0, 1, 2, 3, 4, 5];
const DRAWN_LENGTHS: [usize; 4] = [0, 1, 2, 3];

/// A part of a book and the lists that are lent.
#[derive(Clone, Debug, PartialEq, Eq)]
pub struct Call {
    pub part: Vec<u8>,
    pub lent: Lent,
}

fn in_exact_lists(part: Vec<u8>) -> Call {
    Call { part, lent: EXACT }
}

/// Where a call stands in its script: the chance that draws it, and how many of its kind are before it.
struct Turn {
    chance: Chance,
    before: usize,
}

/// A unit of each class in turn.
fn made(turn: &mut Turn) -> Call {
    let (class, _) = CLASSES[turn.before % CLASSES.len()];
    in_exact_lists(record_of(&unit_of_class(&mut turn.chance, class)))
}

/// A unit of each shape in turn.
fn shaped(turn: &mut Turn) -> Call {
    let (_, shape) = SHAPES[turn.before % SHAPES.len()];
    in_exact_lists(record_of(&shape(&mut turn.chance)))
}

fn bad(turn: &mut Turn) -> Call {
    let chance = &mut turn.chance;
    let mut unit = if chance.one_in(2) { made_unit(chance) } else { shaped_unit(chance) };
    make_bad(chance, &mut unit);
    in_exact_lists(record_of(&unit))
}

fn any_record(chance: &mut Chance) -> Vec<u8> {
    record_of(&any_unit(chance))
}

/// One field at or past its limit.
fn field(turn: &mut Turn) -> Call {
    let mut record = any_record(&mut turn.chance);
    set_field(&mut turn.chance, &mut record);
    in_exact_lists(record)
}

/// Faults as in damaged books.
fn spoiled(turn: &mut Turn) -> Call {
    let mut record = any_record(&mut turn.chance);
    spoil_once_or_twice(&mut turn.chance, Kind::Unit, &mut record);
    in_exact_lists(record)
}

/// Two faults, each with each in turn, and whichever stands first in the record; two of readings at any two t.
fn pair(turn: &mut Turn) -> Call {
    let chance = &mut turn.chance;
    let mut record = record_of(&shaped_unit(chance));
    for fault in [FAULTS[turn.before % FAULTS.len()], FAULTS[turn.before / FAULTS.len() % FAULTS.len()]] {
        let t = draw_t(chance);
        put_fault(chance, &mut record, fault, t);
    }
    in_exact_lists(record)
}

/// Bad readings before, behind or on both sides of a wrong one.
fn bad_and_wrong(turn: &mut Turn) -> Call {
    let chance = &mut turn.chance;
    let mut record = record_of(&shaped_unit(chance));
    let wrong = draw_t(chance);
    for _ in 0..chance.pick(&[1, 1, 2, 7]) {
        let beside = chance.pick(&[wrong - 1, wrong + 1]).clamp(1, POINTS);
        let any = draw_t(chance);
        let t = chance.pick(&[beside, any]);
        put_fault(chance, &mut record, Fault::Bad, t);
    }
    let fault = chance.pick(&[Fault::GoodReading, Fault::BadReading]);
    put_fault(chance, &mut record, fault, wrong);
    in_exact_lists(record)
}

/// The first bytes of a record, or a record with more behind it.
fn cut_or_longer(chance: &mut Chance, mut part: Vec<u8>) -> Vec<u8> {
    let any = chance.place(UNIT_SIZE);
    let length = chance.pick(&[0, 1, 2, 71, 72, 371, 371, 372, 373, 373, 396, 744, 1_117, any, any]);
    while part.len() < length {
        let byte = chance.draw() as u8;
        part.push(chance.pick(&[0, 255, byte]));
    }
    part.truncate(length);
    part
}

fn cut(turn: &mut Turn) -> Call {
    let chance = &mut turn.chance;
    let mut record = any_record(chance);
    if chance.one_in(3) {
        spoil_once_or_twice(chance, Kind::Unit, &mut record);
    }
    in_exact_lists(cut_or_longer(chance, record))
}

fn longer_lists(turn: &mut Turn) -> Call {
    let chance = &mut turn.chance;
    let lent = Lent {
        points: chance.pick(&[75, 76, 77, 80, 150]),
        strip: chance.pick(&[3, 4, 5, 7]),
        drawn: chance.pick(&[1, 2, 3, 75]),
    };
    Call { part: any_record(chance), lent }
}

/// Lists on both sides of their edges, one of them alone or all of them.
fn any_lists(chance: &mut Chance) -> Lent {
    let drawn = Lent {
        points: chance.pick(&POINTS_LENGTHS),
        strip: chance.pick(&STRIP_LENGTHS),
        drawn: chance.pick(&DRAWN_LENGTHS),
    };
    match chance.place(5) {
        0 | 1 => Lent { points: drawn.points, ..EXACT },
        2 => Lent { strip: drawn.strip, ..EXACT },
        3 => Lent { drawn: drawn.drawn, ..EXACT },
        _ => drawn,
    }
}

fn lists(turn: &mut Turn) -> Call {
    let chance = &mut turn.chance;
    Call { part: any_record(chance), lent: any_lists(chance) }
}

/// Lists on both sides of their edges with a part that is cut, wrong or bad.
fn lists_and_fault(turn: &mut Turn) -> Call {
    let chance = &mut turn.chance;
    let mut part = any_record(chance);
    let t = draw_t(chance);
    if chance.one_in(3) {
        let length = chance.pick(&[0, 1, 371]);
        part.truncate(length);
    } else {
        let fault = chance.pick(&FAULTS);
        put_fault(chance, &mut part, fault, t);
    }
    Call { part, lent: any_lists(chance) }
}

/// A record with some bits turned, or bytes of any kind.
fn loose_bytes(turn: &mut Turn) -> Call {
    let chance = &mut turn.chance;
    let mut part = any_record(chance);
    if chance.one_in(4) {
        part.iter_mut().for_each(|byte| *byte = chance.draw() as u8);
    }
    for _ in 0..chance.pick(&[1, 1, 2, 5]) {
        part[chance.place(UNIT_SIZE)] ^= 1 << chance.place(8);
    }
    in_exact_lists(part)
}

type Maker = fn(&mut Turn) -> Call;

const KINDS: [(&str, Maker); 17] = [
    ("made", made),
    ("shaped", shaped),
    ("shaped", shaped),
    ("shaped", shaped),
    ("shaped", shaped),
    ("bad", bad),
    ("field", field),
    ("field", field),
    ("spoiled", spoiled),
    ("pair", pair),
    ("pair", pair),
    ("bad-and-wrong", bad_and_wrong),
    ("cut", cut),
    ("longer-lists", longer_lists),
    ("lists", lists),
    ("lists-and-fault", lists_and_fault),
    ("loose-bytes", loose_bytes),
];

/// How many of its kind stand before the call of this number.
fn before(nth: u64) -> usize {
    let [round, place] = [nth as usize / KINDS.len(), nth as usize % KINDS.len()];
    let of_kind = |kinds: &[(&str, Maker)]| kinds.iter().filter(|kind| kind.0 == KINDS[place].0).count();
    round * of_kind(&KINDS) + of_kind(&KINDS[..place])
}

/// The call of a number, and its kind.
pub fn call(seed: u64, nth: u64) -> (&'static str, Call) {
    let (kind, maker) = KINDS[nth as usize % KINDS.len()];
    let chance = Chance::new(seed.wrapping_mul(0x1_0000_0001).wrapping_add(nth));
    (kind, maker(&mut Turn { chance, before: before(nth) }))
}

/// A call in one line: the part in hexadecimal digits, `-` for no byte, and the three lengths.
pub fn line_of(call: &Call) -> String {
    let hex: String = call.part.iter().map(|byte| format!("{byte:02x}")).collect();
    let part = if hex.is_empty() { "-" } else { &hex };
    let Lent { points, strip, drawn } = call.lent;
    format!("{part} {points} {strip} {drawn}")
}

/// The call that a line says.
pub fn call_in(line: &str) -> Option<Call> {
    let words: Vec<&str> = line.split(' ').collect();
    let &[part, points, strip, drawn] = &words[..] else {
        return None;
    };
    let lent = Lent { points: points.parse().ok()?, strip: strip.parse().ok()?, drawn: drawn.parse().ok()? };
    Some(Call { part: hex_bytes(part)?, lent })
}

/// The three lists after a call, with what stands behind them.
#[derive(Clone, Debug, PartialEq, Eq)]
pub struct Left {
    pub points: Vec<Bits>,
    pub strip: Vec<Bits>,
    pub drawn: Vec<u32>,
}

fn counting_from(first: u32, length: usize) -> Vec<u32> {
    (0..(length + BEHIND) as u32).map(|place| first + place).collect()
}

impl Left {
    fn before(lent: Lent) -> Left {
        Left {
            points: counting_from(POINTS_BEFORE, lent.points),
            strip: counting_from(STRIP_BEFORE, lent.strip),
            drawn: counting_from(DRAWN_BEFORE, lent.drawn),
        }
    }

    fn write(&mut self, trend: &Trend) {
        let SmallRecord { lowest, highest, last } = trend.small_record();
        self.strip[..3].copy_from_slice(&[lowest, highest, last]);
        self.drawn[0] = 0;
        if let Trend::Drawn(points, _) = trend {
            self.points[..POINTS].copy_from_slice(points);
            self.drawn[0] = POINTS as u32;
        }
    }
}

/// What a call replies, in a word or as `refused N PLACE T`, and what it leaves. A record alone has no place.
pub fn made_of(call: &Call) -> (String, Left) {
    let mut left = Left::before(call.lent);
    let reply = match trend(&call.part, call.lent) {
        Ok(trend) => {
            left.write(&trend);
            if trend == Trend::Bad {
                "bad".to_string()
            } else {
                "drawn".to_string()
            }
        }
        Err(refusal) => format!("refused {refusal}"),
    };
    (reply, left)
}

/// The answer to a call in one line.
pub fn answer(call: &Call) -> String {
    let (reply, left) = made_of(call);
    let hex = |list: &[Bits]| list.iter().map(|bits| format!(" {bits:08X}")).collect::<String>();
    let decimal: String = left.drawn.iter().map(|number| format!(" {number}")).collect();
    format!("{reply} points{} strip{} drawn{decimal}", hex(&left.points), hex(&left.strip))
}

/// What the call of a line replies and leaves.
pub fn answer_line(line: &str) -> String {
    call_in(line).map_or_else(|| "bad line".to_string(), |call| answer(&call))
}

pub fn write_calls(count: u64, seed: u64, out: &mut impl Write) -> io::Result<()> {
    (0..count).try_for_each(|nth| writeln!(out, "{}", line_of(&call(seed, nth).1)))
}
