//! One record at a time, and one share at a time, in words: for comparing the
//! library's readers on loose bytes. The lines are described in README.md.

use crate::book::*;
use crate::quantities::*;
use crate::share::share;

fn joined(numbers: impl IntoIterator<Item = i128>) -> String {
    numbers.into_iter().map(|number| number.to_string()).collect::<Vec<_>>().join(" ")
}

fn marks(good: &[bool; POINTS]) -> String {
    good.iter().map(|&good| if good { '1' } else { '0' }).collect()
}

pub fn hex_bytes(word: &str) -> Option<Vec<u8>> {
    if word == "-" {
        return Some(Vec::new());
    }
    if !word.is_ascii() || word.len() % 2 == 1 {
        return None;
    }
    (0..word.len()).step_by(2).map(|at| u8::from_str_radix(&word[at..at + 2], 16).ok()).collect()
}

/// The number before, or `-` for the first record of its kind.
fn number_before(word: Option<&str>) -> Option<i128> {
    word.and_then(|word| word.parse().ok())
}

fn frequency_in_numbers(record: FrequencyRecord) -> String {
    format!(
        "{} {} {} {} {} {}",
        record.region,
        i128::from(record.separation),
        marks(&record.good),
        record.measure_before,
        record.generation,
        joined(record.defaults)
    )
}

fn unit_in_numbers(unit: Unit) -> String {
    format!(
        "{} {} {} {} {} {} {} {}",
        unit.number,
        unit.region,
        i128::from(unit.load),
        unit.start,
        unit.end,
        joined(unit.defaults),
        marks(&unit.good),
        unit.group
    )
}

fn requirement_in_numbers(requirement: Requirement) -> String {
    joined([
        requirement.number,
        i128::from(requirement.region_set),
        i128::from(requirement.direction == Direction::Lower),
        requirement.price,
        requirement.cost,
        requirement.enabled,
        requirement.used,
    ])
}

/// The last requirement is also where bytes that follow the book are refused.
fn last_requirement(bytes: &[u8], before: Option<i128>) -> Result<Requirement, Refusal> {
    let requirement = read_requirement(bytes, before)?;
    if bytes.len() > REQUIREMENT_SIZE {
        return Err(Refusal::of(4));
    }
    Ok(requirement)
}

fn read_line(kind: &str, bytes: &[u8], context: &[&str]) -> Option<Result<String, Refusal>> {
    let first = context.first().copied();
    Some(match kind {
        "contents" => read_contents(bytes)
            .map(|contents| joined([contents.units as i128, contents.requirements as i128])),
        "settings" => read_settings(bytes).map(|settings| {
            joined([
                settings.smoothing,
                settings.bad_frequency_limit,
                settings.bad_unit_percent,
                settings.interval,
            ])
        }),
        "frequency" => read_frequency(bytes, first?.parse().ok()?).map(frequency_in_numbers),
        "unit" => read_unit(bytes, number_before(first)).map(unit_in_numbers),
        "requirement" if context.get(1) == Some(&"last") => {
            last_requirement(bytes, number_before(first)).map(requirement_in_numbers)
        }
        "requirement" => read_requirement(bytes, number_before(first)).map(requirement_in_numbers),
        _ => return None,
    })
}

/// A lone record has no place in a body: number and t, 0 where there is none.
fn refused_record(refusal: Refusal) -> String {
    format!("refused {} {}", refusal.number, refusal.t)
}

/// A share takes no record: the number alone.
fn refused_share(refusal: Refusal) -> String {
    format!("refused {}", refusal.number)
}

fn answer(result: Option<Result<String, Refusal>>, refused: fn(Refusal) -> String) -> String {
    match result {
        Some(Ok(fields)) => fields,
        Some(Err(refusal)) => refused(refusal),
        None => "bad line".to_string(),
    }
}

pub fn record_line(line: &str) -> String {
    let words: Vec<&str> = line.split_whitespace().collect();
    let result = match words.as_slice() {
        [kind, hex, context @ ..] => hex_bytes(hex).and_then(|bytes| read_line(kind, &bytes, context)),
        _ => None,
    };
    answer(result, refused_record)
}

pub fn share_line(line: &str) -> String {
    let numbers: Option<Vec<i128>> =
        line.split_whitespace().map(|word| word.parse::<u64>().ok().map(i128::from)).collect();
    let result = match numbers.as_deref() {
        Some([total, weights @ ..]) => Some(share(*total, weights).map(|shared| {
            format!("{} unplaced {}", joined(shared.amounts), shared.unplaced).trim_start().to_string()
        })),
        _ => None,
    };
    answer(result, refused_share)
}
