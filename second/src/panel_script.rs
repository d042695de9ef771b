//! Calls of the panel's doors (request R-13), as a script, and of which sort their answers are. A seed and a number name one call.

use std::io::{self, Write};

use crate::chance::Chance;
use crate::panel::{phrase, PLACES};
use crate::panel_door::*;

const U32: i128 = u32::MAX as i128;
/// Texts that are too short, exact and longer.
pub const ROOMS: [usize; 6] = [0, 1, 79, 80, 81, 100];
const LONG_ENOUGH: [usize; 4] = [80, 80, 81, 100];
const MOSTLY_LONG_ENOUGH: [usize; 8] = [80, 80, 80, 80, 81, 100, 79, 0];
/// Of units and requirements, every number of digits and past the widest.
pub const NUMBERS: [u32; 18] = [
    0,
    1,
    9,
    10,
    99,
    100,
    999,
    1_000,
    9_999,
    10_000,
    65_534,
    65_535,
    65_536,
    65_537,
    99_999,
    131_071,
    1 << 31,
    u32::MAX,
];
/// How many of them are within it.
pub const RIGHT_NUMBERS: usize = 12;
/// Of flags; most of the wrong ones would be right in fewer bits.
pub const FLAGS: [u32; 7] = [0, 1, 2, 256, 257, 65_536, u32::MAX];
/// Of standings: live, default for each of the three reasons, and past them; most of the wrong ones would be right in fewer bits.
pub const STANDINGS: [u32; 9] = [0, 1, 2, 3, 4, 258, 65_539, 1 << 31, u32::MAX];
/// How many of them there are.
pub const RIGHT_STANDINGS: usize = 4;
pub const MEMBERS: [u32; 14] = [0, 1, 2, 5, 7, 13, 76, 477, 509, 511, 512, 513, u32::MAX - 1, u32::MAX];
/// Keys that there are not; all but two would be there in fewer bits.
const NO_KEYS: [u32; 8] = [4, 5, 256, 259, 65_536, 65_538, 1 << 31, u32::MAX];

/// Zero and its neighbours, every power of ten and its neighbours, both ways, and the last figures of 64 bits.
pub fn edge_figures() -> Vec<i64> {
    let mut all = vec![0, i64::MIN, i64::MIN + 1, i64::MAX - 1, i64::MAX];
    for power in 0..=18 {
        let ten = 10i64.pow(power);
        all.extend([ten - 1, ten, ten + 1].into_iter().flat_map(|size| [size, -size]));
    }
    all.sort();
    all.dedup();
    all
}

/// Every refusal number to 100, then those that would be a refusal's in 8 or 16 bits, and large ones.
pub fn edge_refusals() -> Vec<u32> {
    let known = (1..=100).filter(|&number| phrase(number) != "unknown");
    let wide = known.flat_map(|number| [256 + number, 65_536 + number, (1 << 31) + number]);
    let large = [101, 127, 128, 255, 256, 257, 65_535, 65_536, 1 << 31, u32::MAX - 1, u32::MAX];
    (0..=100).chain(wide).chain(large).collect()
}

/// Where a call stands in its script: the chance that draws it, and how many of its kind are before it.
struct Turn {
    chance: Chance,
    before: usize,
    edges: Vec<i64>,
}

fn draw_figure(turn: &mut Turn) -> i64 {
    let chance = &mut turn.chance;
    let edge = chance.pick(&turn.edges);
    let size = chance.any_size(i64::MAX.into()) as i64;
    let any = chance.draw() as i64;
    chance.pick(&[edge, edge, size, -size, any])
}

fn draw_figures(turn: &mut Turn) -> [i64; 3] {
    [draw_figure(turn), draw_figure(turn), draw_figure(turn)]
}

/// Each edge in each of the three places in turn, beside any others.
fn edge_in_turn(turn: &mut Turn) -> [i64; 3] {
    let mut figures = draw_figures(turn);
    figures[turn.before % 3] = turn.edges[turn.before / 3 % turn.edges.len()];
    figures
}

fn right_number(chance: &mut Chance) -> u32 {
    let any = chance.between(0, 65_535) as u32;
    let edge = chance.pick(&NUMBERS[..RIGHT_NUMBERS]);
    chance.pick(&[edge, any])
}

fn right_first(turn: &mut Turn, figures: [i64; 3]) -> FirstCall {
    let chance = &mut turn.chance;
    FirstCall {
        number: right_number(chance),
        direction: chance.pick(&[0, 1]),
        figures,
        room: chance.pick(&LONG_ENOUGH),
    }
}

fn right_member(turn: &mut Turn, figures: [i64; 3]) -> MemberCall {
    let chance = &mut turn.chance;
    let any = chance.draw() as u32;
    let edge = chance.pick(&NUMBERS);
    let residual = chance.pick(&[0, 0, 1]);
    let number = if residual == 1 { chance.pick(&[edge, edge, any]) } else { right_number(chance) };
    let standing = chance.pick(&STANDINGS[..RIGHT_STANDINGS]);
    MemberCall { residual, number, standing, figures, room: chance.pick(&LONG_ENOUGH) }
}

fn first_figures(turn: &mut Turn) -> PanelCall {
    let figures = edge_in_turn(turn);
    PanelCall::First(right_first(turn, figures))
}

fn member_figures(turn: &mut Turn) -> PanelCall {
    let figures = edge_in_turn(turn);
    PanelCall::Member(right_member(turn, figures))
}

/// One of a list in turn; the lists before it, so long together, go round first.
fn in_turn<T: Copy>(list: &[T], turn: &Turn, before: usize) -> T {
    list[turn.before / before % list.len()]
}

/// Each number with each direction.
fn first_names(turn: &mut Turn) -> PanelCall {
    let figures = draw_figures(turn);
    let number = in_turn(&NUMBERS, turn, 1);
    let direction = in_turn(&FLAGS, turn, NUMBERS.len());
    let room = turn.chance.pick(&MOSTLY_LONG_ENOUGH);
    PanelCall::First(FirstCall { number, direction, figures, room })
}

/// Each number with each flag and each standing.
fn member_names(turn: &mut Turn) -> PanelCall {
    let figures = draw_figures(turn);
    let number = in_turn(&NUMBERS, turn, 1);
    let residual = in_turn(&FLAGS, turn, NUMBERS.len());
    let standing = in_turn(&STANDINGS, turn, NUMBERS.len() * FLAGS.len());
    let room = turn.chance.pick(&MOSTLY_LONG_ENOUGH);
    PanelCall::Member(MemberCall { residual, number, standing, figures, room })
}

fn first_rooms(turn: &mut Turn) -> PanelCall {
    let figures = draw_figures(turn);
    let room = in_turn(&ROOMS, turn, 1);
    let mut call = right_first(turn, figures);
    call.room = room;
    PanelCall::First(call)
}

fn member_rooms(turn: &mut Turn) -> PanelCall {
    let figures = draw_figures(turn);
    let room = in_turn(&ROOMS, turn, 1);
    let mut call = right_member(turn, figures);
    call.room = room;
    PanelCall::Member(call)
}

fn phrase_numbers(turn: &mut Turn) -> PanelCall {
    let refusal = in_turn(&edge_refusals(), turn, 1);
    PanelCall::Phrase(PhraseCall { refusal, room: turn.chance.pick(&LONG_ENOUGH) })
}

fn phrase_rooms(turn: &mut Turn) -> PanelCall {
    let room = in_turn(&ROOMS, turn, 1);
    let chance = &mut turn.chance;
    let (small, any) = (chance.between(0, 100), chance.between(0, U32));
    PanelCall::Phrase(PhraseCall { refusal: chance.pick(&[small, any]) as u32, room })
}

/// The same word, or another: by one, or in its upper half alone.
fn same_or_other(chance: &mut Chance, word: u32, same: bool) -> u32 {
    let other = chance.pick(&[word.wrapping_add(1), word.wrapping_sub(1), word ^ 0x1_0000, word ^ (1 << 31)]);
    if same {
        word
    } else {
        other
    }
}

fn draw_word(chance: &mut Chance) -> u32 {
    let any = chance.draw() as u32;
    chance.pick(&[0, 1, 7, 65_535, u32::MAX, any, any])
}

/// A page on both sides of the last one and of the first one, and any.
fn draw_page(chance: &mut Chance, members: u32, nth: usize) -> u32 {
    match nth % 10 {
        0 => 0,
        1 => 1,
        2 => members.saturating_sub(1),
        3 => members,
        4 => members.saturating_add(1),
        5 => members.saturating_add(2),
        6 => u32::MAX,
        7 => chance.draw() as u32,
        _ => chance.between(0, members.into()) as u32,
    }
}

/// Each key with the same and another book and requirement, each number of members and each sort of page.
fn step_walks(turn: &mut Turn) -> PanelCall {
    let key = in_turn(&[0, 1, 2, 3], turn, 1);
    let same_book = in_turn(&[true, false], turn, 4);
    let same_requirement = in_turn(&[true, false], turn, 8);
    let members = in_turn(&MEMBERS, turn, 16);
    let nth = turn.before / (16 * MEMBERS.len());
    let chance = &mut turn.chance;
    let record = [draw_word(chance), draw_word(chance), draw_page(chance, members, nth)];
    PanelCall::Step(StepCall {
        words: chance.pick(&[3, 3, 3, 4]),
        record,
        key,
        book: same_or_other(chance, record[0], same_book),
        requirement: same_or_other(chance, record[1], same_requirement),
        members,
    })
}

fn any_step(turn: &mut Turn) -> StepCall {
    let chance = &mut turn.chance;
    let any = chance.draw() as u32;
    let edge = chance.pick(&MEMBERS);
    let members = chance.pick(&[edge, edge, any]);
    let nth = chance.place(10);
    let record = [draw_word(chance), draw_word(chance), draw_page(chance, members, nth)];
    let (same_book, same_requirement) = (!chance.one_in(4), !chance.one_in(4));
    StepCall {
        words: 3,
        record,
        key: chance.pick(&[0, 1, 2, 3]),
        book: same_or_other(chance, record[0], same_book),
        requirement: same_or_other(chance, record[1], same_requirement),
        members,
    }
}

/// Each number of lent words with each key, there or not.
fn step_words(turn: &mut Turn) -> PanelCall {
    let key = in_turn(&[0, 1, 2, 3, 4, u32::MAX], turn, WORDS_LIMIT + 1);
    PanelCall::Step(StepCall { words: turn.before % (WORDS_LIMIT + 1), key, ..any_step(turn) })
}

fn step_keys(turn: &mut Turn) -> PanelCall {
    let key = in_turn(&NO_KEYS, turn, 1);
    let words = turn.chance.pick(&[3, 3, 4]);
    PanelCall::Step(StepCall { words, key, ..any_step(turn) })
}

type Draw = fn(&mut Turn) -> PanelCall;

/// The kinds of a round; those that have the most to go through stand in it more often.
const KINDS: [(&str, Draw); 16] = [
    ("first, figures", first_figures),
    ("member, figures", member_figures),
    ("phrase, numbers", phrase_numbers),
    ("step, walks", step_walks),
    ("first, names", first_names),
    ("member, names", member_names),
    ("phrase, rooms", phrase_rooms),
    ("step, walks", step_walks),
    ("first, figures", first_figures),
    ("member, figures", member_figures),
    ("phrase, numbers", phrase_numbers),
    ("step, words", step_words),
    ("first, rooms", first_rooms),
    ("member, rooms", member_rooms),
    ("step, keys", step_keys),
    ("step, walks", step_walks),
];

/// How many calls of its kind are before this one.
fn before(nth: u64) -> usize {
    let (round, place) = (nth as usize / KINDS.len(), nth as usize % KINDS.len());
    let (kind, _) = KINDS[place];
    let of_kind = |kinds: &[(&str, Draw)]| kinds.iter().filter(|(other, _)| *other == kind).count();
    round * of_kind(&KINDS) + of_kind(&KINDS[..place])
}

/// A call, and its kind.
pub fn call(seed: u64, nth: u64) -> (&'static str, PanelCall) {
    let chance = Chance::new(seed.wrapping_mul(0x1_0000_0001).wrapping_add(nth).wrapping_add(6 << 56));
    let (kind, draw) = KINDS[nth as usize % KINDS.len()];
    (kind, draw(&mut Turn { chance, before: before(nth), edges: edge_figures() }))
}

pub fn write_calls(count: u64, seed: u64, out: &mut impl Write) -> io::Result<()> {
    for nth in 0..count {
        writeln!(out, "{}", line_of(&call(seed, nth).1))?;
    }
    Ok(())
}

/// How many of a page's figures are hashes.
pub fn hashed(text: &str) -> usize {
    text.matches(&"#".repeat(PLACES)).count()
}

fn page_sort(reply: Result<String, crate::book::Refusal>) -> String {
    match reply {
        Ok(text) => format!("written with {} as hashes", hashed(&text)),
        Err(refusal) => format!("refused {}", refusal.number),
    }
}

/// A member's page is counted by its standing's number too.
fn member_sort(call: &MemberCall) -> String {
    let reply = member_reply(call);
    let standing = if reply.is_ok() { format!("standing {} ", call.standing) } else { String::new() };
    standing + &page_sort(reply)
}

fn step_sort(call: &StepCall) -> String {
    let (number, words) = step_reply(call);
    match (number, &words[..]) {
        (0, [_, _, 0, ..]) => "on the first page".to_string(),
        (0, [_, _, page, ..]) if *page == call.members => "on the last page".to_string(),
        (0, _) => "on a page between".to_string(),
        _ => format!("refused {number}"),
    }
}

/// Of which sort a call's answer is.
pub fn sort_of(call: &PanelCall) -> String {
    match call {
        PanelCall::First(call) => page_sort(first_reply(call)),
        PanelCall::Member(call) => member_sort(call),
        PanelCall::Phrase(call) => match phrase_reply(call) {
            Ok(text) => text.trim_end().to_string(),
            Err(refusal) => format!("refused {}", refusal.number),
        },
        PanelCall::Step(call) => step_sort(call),
    }
}
