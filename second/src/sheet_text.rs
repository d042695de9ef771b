//! What the program `sheet` reads and prints (request R-12): two lines, or a book with a requirement's number and
//! one line.
//!
//! A line ends at a line feed, or where the text does; one that is not there is empty, and what stands after the
//! last line that is asked for is not looked at. Words are apart by blanks, which are spaces and tabs. A whole
//! number is an optional minus and one or more digits 0 to 9, within i64; leading zeros are let in, a plus is not.

use crate::book::{read_book, Refusal};
use crate::listing::name_of;
use crate::members::{members, Member};
use crate::performance::region_views;
use crate::roster::grouped;
use crate::sheet::{judge, Side, Verdict};

/// The number that a word stands for; None where it is no whole number within i64.
pub fn whole_number(word: &[u8]) -> Option<i128> {
    let (minus, digits) = match word {
        [b'-', digits @ ..] => (true, digits),
        digits => (false, digits),
    };
    if digits.is_empty() {
        return None;
    }
    let mut size: i128 = 0;
    for digit in digits {
        if !digit.is_ascii_digit() {
            return None;
        }
        size = 10 * size + i128::from(digit - b'0');
        // Far past i64, and no digit after it makes it smaller.
        if size > 1 << 64 {
            return None;
        }
    }
    let number = if minus { -size } else { size };
    i64::try_from(number).ok().map(i128::from)
}

/// The numbers of a line; None where a word is no whole number.
pub fn numbers_of(line: &[u8]) -> Option<Vec<i128>> {
    let blank = |byte: &u8| *byte == b' ' || *byte == b'\t' || *byte == b'\r';
    line.split(blank).filter(|word| !word.is_empty()).map(whole_number).collect()
}

/// A line of the text, 0 is the first.
fn line_at(text: &[u8], place: usize) -> &[u8] {
    text.split(|byte| *byte == b'\n').nth(place).unwrap_or(&[])
}

/// The line that is printed of a verdict; `name` adds to a wrong member what it is called.
fn in_words(verdict: Result<Verdict, Refusal>, name: impl Fn(usize) -> String) -> String {
    match verdict {
        Ok(Verdict::Possible) => "possible\n".to_string(),
        Ok(Verdict::WrongMember(member)) => format!("wrong member {member}{}\n", name(member)),
        Ok(Verdict::WrongSide(Side::Positive)) => "wrong side positive\n".to_string(),
        Ok(Verdict::WrongSide(Side::Negative)) => "wrong side negative\n".to_string(),
        Err(refusal) => format!("refused {refusal}\n"),
    }
}

/// All that `sheet` prints of two lines, performances and factors.
pub fn two_lines(performances: &[u8], factors: &[u8]) -> String {
    let Some(performances) = numbers_of(performances) else {
        return "text 1\n".to_string();
    };
    let Some(factors) = numbers_of(factors) else {
        return "text 2\n".to_string();
    };
    in_words(judge(&performances, &factors), |_| String::new())
}

/// All that `sheet` prints of a text on standard input.
pub fn of_text(text: &[u8]) -> String {
    two_lines(line_at(text, 0), line_at(text, 1))
}

/// The members of a book's requirement; None where the book has no requirement of this number.
pub fn members_of(book: &[u8], requirement: i128) -> Result<Option<Vec<Member>>, Refusal> {
    let book = read_book(book)?;
    let views = region_views(&book);
    let found = book.requirements.iter().find(|found| found.number == requirement);
    Ok(found.map(|found| members(found, &book, &grouped(&book.units), &views)))
}

/// The performances that the members' factors are made of: payment defaults where they stand in.
pub fn performances_of(members: &[Member]) -> Vec<i128> {
    members.iter().map(|member| member.payment_performance).collect()
}

/// All that `sheet` prints of a book, a requirement's number and a text whose first line is the factors: the book
/// is read first, then the requirement is looked for, then the line is read.
pub fn of_book(book: &[u8], requirement: i128, text: &[u8]) -> String {
    let members = match members_of(book, requirement) {
        Ok(Some(members)) => members,
        Ok(None) => return format!("no requirement {requirement}\n"),
        Err(refusal) => return format!("refused {refusal}\n"),
    };
    let Some(factors) = numbers_of(line_at(text, 0)) else {
        return "text 1\n".to_string();
    };
    let name = |member: usize| format!(" {}", name_of(&members[member - 1]));
    in_words(judge(&performances_of(&members), &factors), name)
}
