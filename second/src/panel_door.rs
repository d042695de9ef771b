//! The panel's C calls over plain numbers (request R-13): a first page, a member's page, a refusal's phrase, and a step of the
//! page record; and the lines that call them. The lines are described in README.md.

use crate::book::{require, Refusal};
use crate::members::Name;
use crate::panel::*;
use crate::performance::{Reason, Standing};
use crate::quantities::Direction;

/// What every byte of a text is before a call.
pub const TEXT_BEFORE: u8 = 0xa5;
/// What the word behind the three of a record is before a call, and stays.
pub const WORD_BEHIND: u32 = 7;
/// So many words are lent to a step at the most.
pub const WORDS_LIMIT: usize = 4;
const RECORD_WORDS: usize = 3;
const NUMBER_LIMIT: u32 = 65_535;
/// A member's standing by its number, the one that `answer` and `member` hand out.
const STANDINGS: [Standing; 4] = [
    Standing::Live,
    Standing::Default(Reason::UnreliableRegion),
    Standing::Default(Reason::BadUnit),
    Standing::Default(Reason::NoGoodUnit),
];

#[derive(Clone, Debug, PartialEq, Eq)]
pub struct FirstCall {
    pub number: u32,
    pub direction: u32,
    pub figures: [i64; 3],
    pub room: usize,
}

#[derive(Clone, Debug, PartialEq, Eq)]
pub struct MemberCall {
    pub residual: u32,
    pub number: u32,
    pub standing: u32,
    pub figures: [i64; 3],
    pub room: usize,
}

#[derive(Clone, Debug, PartialEq, Eq)]
pub struct PhraseCall {
    pub refusal: u32,
    pub room: usize,
}

#[derive(Clone, Debug, PartialEq, Eq)]
pub struct StepCall {
    /// How many words are lent.
    pub words: usize,
    pub record: [u32; 3],
    pub key: u32,
    pub book: u32,
    pub requirement: u32,
    pub members: u32,
}

#[derive(Clone, Debug, PartialEq, Eq)]
pub enum PanelCall {
    First(FirstCall),
    Member(MemberCall),
    Phrase(PhraseCall),
    Step(StepCall),
}

fn direction_of(number: u32) -> Result<Direction, Refusal> {
    Direction::BOTH.get(number as usize).copied().ok_or(Refusal::of(11))
}

fn standing_of(number: u32) -> Result<Standing, Refusal> {
    STANDINGS.get(number as usize).copied().ok_or(Refusal::of(11))
}

/// A flag that is 0 or 1.
fn flag(number: u32) -> Result<bool, Refusal> {
    require(number <= 1, 11)?;
    Ok(number == 1)
}

fn require_room(room: usize) -> Result<(), Refusal> {
    require(room >= TEXT, 12)
}

pub fn first_reply(call: &FirstCall) -> Result<String, Refusal> {
    require(call.number <= NUMBER_LIMIT, 11)?;
    let direction = direction_of(call.direction)?;
    require_room(call.room)?;
    Ok(first_page(call.number.into(), direction, call.figures.map(i128::from)))
}

/// The residual's number is not looked at.
fn name_of_call(call: &MemberCall) -> Result<Name, Refusal> {
    if flag(call.residual)? {
        return Ok(Name::Residual);
    }
    require(call.number <= NUMBER_LIMIT, 11)?;
    Ok(Name::Unit(call.number.into()))
}

/// Any name goes with any standing.
pub fn member_reply(call: &MemberCall) -> Result<String, Refusal> {
    let name = name_of_call(call)?;
    let standing = standing_of(call.standing)?;
    require_room(call.room)?;
    Ok(member_page(name, standing == Standing::Live, call.figures.map(i128::from)))
}

pub fn phrase_reply(call: &PhraseCall) -> Result<String, Refusal> {
    require_room(call.room)?;
    Ok(phrase_page(call.refusal))
}

/// The words that are lent, before the call.
fn words_before(call: &StepCall) -> Vec<u32> {
    let [book, requirement, page] = call.record;
    [book, requirement, page, WORD_BEHIND].into_iter().take(call.words).collect()
}

fn stepped(call: &StepCall) -> Result<[u32; 3], Refusal> {
    require(call.words >= RECORD_WORDS, 12)?;
    let key = Key::ALL.get(call.key as usize).copied().ok_or(Refusal::of(11))?;
    let [book, requirement, page] = call.record.map(i128::from);
    let record = Page { book, requirement, page };
    let after = step(record, key, call.book.into(), call.requirement.into(), call.members.into());
    Ok([after.book, after.requirement, after.page].map(|word| word as u32))
}

/// The reply's number, and the words that are lent after the call.
pub fn step_reply(call: &StepCall) -> (u8, Vec<u32>) {
    let mut words = words_before(call);
    match stepped(call) {
        Ok(record) => {
            words[..RECORD_WORDS].copy_from_slice(&record);
            (0, words)
        }
        Err(refusal) => (refusal.number, words),
    }
}

/// All bytes of the text after the call, in hexadecimal digits.
fn text_after(written: &str, room: usize) -> String {
    let mut text = vec![TEXT_BEFORE; room];
    text[..written.len()].copy_from_slice(written.as_bytes());
    match room {
        0 => "-".to_string(),
        _ => text.iter().map(|byte| format!("{byte:02x}")).collect(),
    }
}

fn text_answer(door: &str, reply: Result<String, Refusal>, room: usize) -> String {
    let (number, written) = match reply {
        Ok(text) => (0, text),
        Err(refusal) => (refusal.number, String::new()),
    };
    format!("{door} {number} {}", text_after(&written, room))
}

fn step_answer(call: &StepCall) -> String {
    let (number, words) = step_reply(call);
    let words: String = words.iter().map(|word| format!(" {word}")).collect();
    format!("step {number}{words}")
}

/// What is said of a call.
pub fn answer(call: &PanelCall) -> String {
    match call {
        PanelCall::First(call) => text_answer("first", first_reply(call), call.room),
        PanelCall::Member(call) => text_answer("member", member_reply(call), call.room),
        PanelCall::Phrase(call) => text_answer("phrase", phrase_reply(call), call.room),
        PanelCall::Step(call) => step_answer(call),
    }
}

fn joined(figures: &[i64; 3]) -> String {
    figures.map(|figure| figure.to_string()).join(" ")
}

/// A call as a line of the script.
pub fn line_of(call: &PanelCall) -> String {
    match call {
        PanelCall::First(FirstCall { number, direction, figures, room }) => {
            format!("first {number} {direction} {} {room}", joined(figures))
        }
        PanelCall::Member(MemberCall { residual, number, standing, figures, room }) => {
            format!("member {residual} {number} {standing} {} {room}", joined(figures))
        }
        PanelCall::Phrase(PhraseCall { refusal, room }) => format!("phrase {refusal} {room}"),
        PanelCall::Step(StepCall { words, record, key, book, requirement, members }) => {
            let record = record.map(|word| word.to_string()).join(" ");
            format!("step {words} {record} {key} {book} {requirement} {members}")
        }
    }
}

/// A number of the width that its place has.
fn read<T: std::str::FromStr>(word: &str) -> Option<T> {
    word.parse().ok()
}

fn three<T: std::str::FromStr>(words: [&str; 3]) -> Option<[T; 3]> {
    let [one, two, three] = words.map(read);
    Some([one?, two?, three?])
}

/// The call that a line says.
pub fn line_in(line: &str) -> Option<PanelCall> {
    let words: Vec<&str> = line.split(' ').collect();
    let call = match words[..] {
        ["first", number, direction, rcr, pool, cost, room] => PanelCall::First(FirstCall {
            number: read(number)?,
            direction: read(direction)?,
            figures: three([rcr, pool, cost])?,
            room: read(room)?,
        }),
        ["member", residual, number, standing, payment, used, unused, room] => {
            PanelCall::Member(MemberCall {
                residual: read(residual)?,
                number: read(number)?,
                standing: read(standing)?,
                figures: three([payment, used, unused])?,
                room: read(room)?,
            })
        }
        ["phrase", refusal, room] => {
            PanelCall::Phrase(PhraseCall { refusal: read(refusal)?, room: read(room)? })
        }
        ["step", lent, of_book, of_requirement, page, key, book, requirement, members] => {
            PanelCall::Step(StepCall {
                words: read(lent).filter(|&words| words <= WORDS_LIMIT)?,
                record: three([of_book, of_requirement, page])?,
                key: read(key)?,
                book: read(book)?,
                requirement: read(requirement)?,
                members: read(members)?,
            })
        }
        _ => return None,
    };
    Some(call)
}

pub fn answer_line(line: &str) -> String {
    line_in(line).map_or_else(|| "bad line".to_string(), |call| answer(&call))
}
