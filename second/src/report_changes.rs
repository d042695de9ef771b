//! Rows that are changed (request R-11): a byte put in, taken out or exchanged, at every place, and
//! rows cut at every byte. A seed names the rows.

use crate::chance::Chance;
use crate::report_door::row_reply;
use crate::report_words::draw_row;

/// Bytes that a row has, and such as are like them.
const LIKELY: &[u8] = b"0123456789-+.,,, /:\n\n\rRQeadltCD10\0";

/// A row as it is written.
pub fn any_row(chance: &mut Chance) -> Vec<u8> {
    row_reply(&draw_row(chance), usize::MAX).expect("a row that can be written").into_bytes()
}

fn any_byte(chance: &mut Chance) -> u8 {
    let any = chance.draw() as u8;
    let likely = chance.pick(LIKELY);
    chance.pick(&[any, likely, likely, likely])
}

/// Another byte for this one, often its neighbour, so that a digit is followed by a digit.
fn other_byte(chance: &mut Chance, byte: u8) -> u8 {
    let drawn = any_byte(chance);
    let other = chance.pick(&[drawn, byte.wrapping_add(1), byte.wrapping_sub(1), byte ^ 0x20]);
    if other == byte {
        byte.wrapping_add(1)
    } else {
        other
    }
}

#[derive(Clone, Copy, Debug, PartialEq, Eq, PartialOrd, Ord)]
pub enum Way {
    PutIn,
    TakenOut,
    Exchanged,
    Cut,
}

impl Way {
    pub const ALL: [Way; 4] = [Way::PutIn, Way::TakenOut, Way::Exchanged, Way::Cut];

    pub fn word(self) -> &'static str {
        match self {
            Way::PutIn => "put-in",
            Way::TakenOut => "taken-out",
            Way::Exchanged => "exchanged",
            Way::Cut => "cut",
        }
    }
}

/// A row changed at one place.
pub fn change(chance: &mut Chance, row: &[u8], way: Way, place: usize) -> Vec<u8> {
    let mut changed = row.to_vec();
    match way {
        Way::PutIn => changed.insert(place, any_byte(chance)),
        Way::TakenOut => {
            changed.remove(place);
        }
        Way::Exchanged => changed[place] = other_byte(chance, row[place]),
        Way::Cut => changed.truncate(place),
    }
    changed
}

/// Every change of a row: each way at each of its places, a byte put in behind its end too.
pub fn all_changes(chance: &mut Chance, row: &[u8]) -> Vec<(Way, Vec<u8>)> {
    let mut all = Vec::new();
    for place in 0..row.len() {
        for way in Way::ALL {
            all.push((way, change(chance, row, way, place)));
        }
    }
    all.push((Way::PutIn, change(chance, row, Way::PutIn, row.len())));
    all
}

/// So many changed rows, of one row after the other.
pub fn changed_rows(count: u64, seed: u64) -> impl Iterator<Item = (Way, Vec<u8>)> {
    let mut chance = Chance::new(seed.wrapping_mul(0x1_0000_0001).wrapping_add(2 << 56));
    let rows = std::iter::repeat_with(move || {
        let row = any_row(&mut chance);
        all_changes(&mut chance, &row)
    });
    rows.flatten().take(count as usize)
}
