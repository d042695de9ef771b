//! A book in words: every field that differs from the base, so that a reader can
//! follow a worked book by hand. Drawn from the book itself, never typed.

use std::fmt::Write;

use crate::book::*;
use crate::quantities::*;
use crate::write::*;

pub const BASE: &str = "\
Base, which every line below departs from:
  settings: a 10000, limit 10, percent 20, interval 7
  each region: separation 0, all points good, FM before 0, generation 0,
    the six defaults 0, all frequencies 50000000
  each unit: start 0, end 0, the six defaults 0, all points good, readings 0
  each requirement: price 0, cost 0, enabled 0, used 0
Defaults are named in the book's order: payment, used, unused for raise, then
payment, used, unused for lower. Bad points hold 0.
";

/// How far from `first` the values go on in equal steps.
fn steady_run(values: &[i128], first: usize) -> usize {
    let mut last = first;
    while last + 1 < values.len()
        && (last == first || values[last + 1] - values[last] == values[first + 1] - values[first])
    {
        last += 1;
    }
    last
}

/// The line at_zero + step·t in its shortest form.
fn line(at_zero: i128, step: i128) -> String {
    let slope = match step.abs() {
        1 => "t".to_string(),
        size => format!("{size}·t"),
    };
    match (at_zero, step) {
        (_, 0) => at_zero.to_string(),
        (0, 1..) => slope,
        (0, _) => format!("-{slope}"),
        (_, 1..) => format!("{at_zero} + {slope}"),
        _ => format!("{at_zero} - {slope}"),
    }
}

/// A series as runs of equal steps, t counted from 1.
pub fn series(values: &[i128]) -> String {
    let mut parts = Vec::new();
    let mut first = 0;
    while first < values.len() {
        let last = steady_run(values, first);
        let value = values[first];
        if last < first + 2 && !(last == first + 1 && values[last] == value) {
            parts.push(format!("t {}: {value}", first + 1));
            first += 1;
            continue;
        }
        let step = values[first + 1] - value;
        let at_zero = value - step * (first as i128 + 1);
        parts.push(format!("t {} to {}: {}", first + 1, last + 1, line(at_zero, step)));
        first = last + 1;
    }
    parts.join("; ")
}

fn bad_points(good: &[bool; POINTS]) -> String {
    let mut spans: Vec<(usize, usize)> = Vec::new();
    for t in (1..=POINTS).filter(|&t| !good[t - 1]) {
        match spans.last_mut() {
            Some((_, last)) if *last + 1 == t => *last = t,
            _ => spans.push((t, t)),
        }
    }
    let words: Vec<String> = spans
        .iter()
        .map(
            |(first, last)| if first == last { format!("t {first}") } else { format!("t {first} to {last}") },
        )
        .collect();
    format!("bad points {}", words.join(", "))
}

fn defaults_in_words(defaults: &[i128; 6]) -> Option<String> {
    let words: Vec<String> = defaults.iter().map(|default| default.to_string()).collect();
    (*defaults != [0; 6]).then(|| format!("defaults {}", words.join(" ")))
}

fn settings_in_words(settings: &Settings) -> String {
    let base = base_book().settings;
    let mut parts = Vec::new();
    let fields = [
        ("a", settings.smoothing, base.smoothing),
        ("limit", settings.bad_frequency_limit, base.bad_frequency_limit),
        ("percent", settings.bad_unit_percent, base.bad_unit_percent),
        ("interval", settings.interval, base.interval),
    ];
    for (name, value, usual) in fields {
        if value != usual {
            parts.push(format!("{name} {value}"));
        }
    }
    if parts.is_empty() {
        "settings: as the base".to_string()
    } else {
        format!("settings: {}", parts.join(", "))
    }
}

fn frequency_in_words(record: &FrequencyRecord) -> String {
    let mut parts = Vec::new();
    if record.separation {
        parts.push("separation 1".to_string());
    }
    if record.measure_before != 0 {
        parts.push(format!("FM before {}", record.measure_before));
    }
    if record.generation != 0 {
        parts.push(format!("generation {}", record.generation));
    }
    parts.extend(defaults_in_words(&record.defaults));
    if record.good != [true; POINTS] {
        parts.push(bad_points(&record.good));
    }
    if record.frequencies != [FREQUENCY_NOMINAL; POINTS] {
        parts.push(format!("frequencies {}", series(&record.frequencies)));
    }
    if parts.is_empty() {
        parts.push("as the base".to_string());
    }
    format!("region {}: {}", record.region, parts.join("\n  "))
}

fn unit_in_words(unit: &Unit) -> String {
    let kind = if unit.load { "load" } else { "generation" };
    let mut parts = vec![format!("region {}, {kind}, start {}, end {}", unit.region, unit.start, unit.end)];
    if unit.group != 0 {
        parts.push(format!("group {}", unit.group));
    }
    parts.extend(defaults_in_words(&unit.defaults));
    if unit.good != [true; POINTS] {
        parts.push(bad_points(&unit.good));
    }
    if unit.readings != [0; POINTS] {
        parts.push(format!("readings {}", series(&unit.readings)));
    }
    format!("unit {}: {}", unit.number, parts.join("\n  "))
}

fn requirement_in_words(requirement: &Requirement) -> String {
    let regions: Vec<String> = (0..REGIONS)
        .filter(|&region| requirement.includes(region))
        .map(|region| region.to_string())
        .collect();
    format!(
        "requirement {}: region set {} (regions {}), {}, price {}, cost {}, enabled {}, used {}",
        requirement.number,
        requirement.region_set,
        regions.join(" "),
        requirement.direction.word(),
        requirement.price,
        requirement.cost,
        requirement.enabled,
        requirement.used
    )
}

pub fn describe(book: &Book) -> String {
    let mut out = String::new();
    writeln!(out, "{}", settings_in_words(&book.settings)).unwrap();
    for record in &book.frequencies {
        writeln!(out, "{}", frequency_in_words(record)).unwrap();
    }
    for unit in &book.units {
        writeln!(out, "{}", unit_in_words(unit)).unwrap();
    }
    for requirement in &book.requirements {
        writeln!(out, "{}", requirement_in_words(requirement)).unwrap();
    }
    out
}

/// The bytes that follow the book's last body, where there are any.
pub fn behind(bytes: &[u8]) -> String {
    let words: Vec<String> = bytes.iter().map(|byte| byte.to_string()).collect();
    if words.is_empty() {
        String::new()
    } else {
        format!("behind the last body: {}\n", words.join(" "))
    }
}
