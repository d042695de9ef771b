//! The listing, or `refused N PLACE T`: what `settle` prints for a book.

use std::fmt::Write;

use crate::book::{read_book, Refusal};
use crate::cents::{settle_book, Line, Settled};
use crate::members::{Member, Name};
use crate::performance::Standing;

pub fn name_in_words(name: Name) -> String {
    match name {
        Name::Unit(number) => format!("unit {number}"),
        Name::Residual => "residual".to_string(),
    }
}

pub fn name_of(member: &Member) -> String {
    name_in_words(member.name)
}

fn write_line(out: &mut String, line: &Line) {
    let name = name_of(&line.member);
    let standing = match line.member.standing {
        Standing::Live => "live",
        Standing::Default(_) => "default",
    };
    let performance = line.member.payment_performance;
    let Line { factor, payment, used, unused, .. } = line;
    writeln!(out, "{name} {standing} {performance} {factor} {payment} {used} {unused}").unwrap();
}

fn write_requirement(out: &mut String, settled: &Settled) {
    let Settled { number, rcr, pool, used_pool, unused_pool, .. } = settled;
    let Settled { used_unplaced, unused_unplaced, .. } = settled;
    let direction = settled.direction.word();
    writeln!(
        out,
        "requirement {number} {direction} {rcr} {pool} {used_pool} {unused_pool} {used_unplaced} {unused_unplaced}"
    )
    .unwrap();
    for line in &settled.lines {
        write_line(out, line);
    }
}

pub fn write_listing(interval: i128, all: &[Settled]) -> String {
    let mut out = format!("interval {interval}\n");
    for settled in all {
        write_requirement(&mut out, settled);
    }
    out
}

fn listing_or_refusal(bytes: &[u8]) -> Result<String, Refusal> {
    let book = read_book(bytes)?;
    Ok(write_listing(book.settings.interval, &settle_book(&book)?))
}

/// All that `settle` prints for these bytes.
pub fn settle(bytes: &[u8]) -> String {
    match listing_or_refusal(bytes) {
        Ok(listing) => listing,
        Err(refusal) => format!("refused {refusal}\n"),
    }
}
