//! Lines for `share` and `records`: what the library's own programs are held to, line by line.

use crate::chance::Chance;
use crate::damage::{damage, spoil_once_or_twice, Kind};
use crate::make::{make, CLASSES};
use crate::unequal::{all_alike, billionths_over, enlarged, telling_total};
use crate::write::to_bytes;

const TOTAL_LIMIT: i128 = 1_000_000_000_000;
const WEIGHT_LIMIT: i128 = 6_010_000_000_000_000_000;
const SIZES: [usize; 10] = [0, 1, 2, 3, 5, 7, 13, 76, 477, 513];

/// The nth share: edges, then drawn ones, then as many of few sizes whose remainders tie.
pub fn share(seed: u64, nth: usize) -> String {
    let mut chance = Chance::new(seed.wrapping_add(nth as u64));
    match nth % 18 {
        8 => return hard(&mut chance),
        9 => return tied(&mut chance, 1),
        10..=12 => return tied(&mut chance, 2),
        13..=15 => return tied(&mut chance, 3),
        16 | 17 => return billionths(&mut chance),
        _ => {}
    }
    let weights = match nth % 18 {
        0 => sum_to(&mut chance, WEIGHT_LIMIT),
        1 => sum_to(&mut chance, WEIGHT_LIMIT + 1),
        2 => equal(&mut chance),
        3 => one_alone(&mut chance),
        4 => vec![0; chance.pick(&SIZES)],
        5 => vec![i128::from(u64::MAX); chance.pick(&SIZES)],
        _ => drawn(&mut chance),
    };
    let total = match chance.between(0, 5) {
        0 => TOTAL_LIMIT,
        1 => TOTAL_LIMIT + 1,
        2 => 1_000_000_000,
        _ => chance.any_size(TOTAL_LIMIT),
    };
    line(total, weights)
}

fn line(total: i128, weights: Vec<i128>) -> String {
    let words: Vec<String> = std::iter::once(total).chain(weights).map(|n| n.to_string()).collect();
    words.join(" ")
}

/// Weights that are alike but for some, which are apart from the others by powers of 2. The total is so small that the remainders are the weights times the
/// total, so that a search among remainders meets distances of every size.
fn hard(chance: &mut Chance) -> String {
    let n = chance.pick(&SIZES).max(2);
    let middle = WEIGHT_LIMIT / (4 * n as i128);
    let mut weights = vec![middle; n];
    for bits in 0..48 {
        for _ in 0..chance.between(0, 3) {
            let place = chance.place(n);
            let apart = (1 << bits).min(middle / 2);
            weights[place] = if chance.one_in(2) { middle - apart } else { middle + apart };
        }
    }
    let total = if chance.one_in(2) { n as i128 / 2 } else { chance.between(0, n as i128) };
    line(total, weights)
}

const TIED_SIZES: [usize; 11] = [2, 3, 5, 7, 13, 76, 477, 512, 513, 513, 513];

/// All weights of one, two or three sizes, each of which ties with every other, or nearly all of them; a total that
/// tells the rule of the share from the one before request R-9, where there is one.
fn tied(chance: &mut Chance, sizes: usize) -> String {
    let count = chance.pick(&TIED_SIZES);
    let (modulus, mut weights) = all_alike(chance, count, sizes);
    if chance.one_in(4) {
        // Some without weight, and one that need not tie.
        (0..count / 8).for_each(|_| weights[chance.place(count)] = 0);
        weights[chance.place(count)] = chance.any_size(100_000);
    }
    let any = chance.any_size(TOTAL_LIMIT);
    let total = telling_total(chance, &weights, modulus, TOTAL_LIMIT).unwrap_or(any);
    line(total, enlarged(chance, &weights, WEIGHT_LIMIT))
}

/// 1,000,000,000 over weights of few sizes that tie.
fn billionths(chance: &mut Chance) -> String {
    let count = chance.pick(&TIED_SIZES);
    let weights = billionths_over(chance, count);
    line(1_000_000_000, enlarged(chance, &weights, WEIGHT_LIMIT))
}

/// Weights of many sizes whose sum is exactly `whole`.
fn sum_to(chance: &mut Chance, whole: i128) -> Vec<i128> {
    let n = chance.pick(&SIZES).max(1);
    let mut weights: Vec<i128> = (1..n).map(|_| chance.any_size(whole / n as i128)).collect();
    weights.push(whole - weights.iter().sum::<i128>());
    weights
}

fn equal(chance: &mut Chance) -> Vec<i128> {
    let n = chance.pick(&SIZES);
    vec![chance.any_size(WEIGHT_LIMIT / n.max(1) as i128); n]
}

fn one_alone(chance: &mut Chance) -> Vec<i128> {
    let mut weights = vec![0; chance.pick(&SIZES).max(1)];
    let place = chance.place(weights.len());
    weights[place] = chance.any_size(WEIGHT_LIMIT);
    weights
}

fn drawn(chance: &mut Chance) -> Vec<i128> {
    let n = chance.pick(&SIZES);
    let most = chance.any_size(WEIGHT_LIMIT / n.max(1) as i128);
    (0..n).map(|_| chance.any_size(most.max(1))).collect()
}

/// The nth record line of a kind: bytes of any kind, or a record of a made book, whole, damaged, with a fault or two of its
/// own, cut or with bytes after it.
pub fn record(kind: &str, seed: u64, nth: usize) -> String {
    let mut chance = Chance::new(seed.wrapping_add(nth as u64));
    let part = if nth.is_multiple_of(2) { any_bytes(&mut chance) } else { made_part(kind, &mut chance) };
    let hex: String = if part.is_empty() {
        "-".to_string()
    } else {
        part.iter().map(|byte| format!("{byte:02x}")).collect()
    };
    let before = if chance.one_in(2) { "-".to_string() } else { chance.any_size(65_535).to_string() };
    match kind {
        "frequency" => format!("frequency {hex} {}", region_due(&part, &mut chance)),
        "unit" => format!("unit {hex} {before}"),
        "requirement" if chance.one_in(2) => format!("requirement {hex} {before} last"),
        "requirement" => format!("requirement {hex} {before}"),
        _ => format!("{kind} {hex}"),
    }
}

/// Mostly the region that the record names.
fn region_due(part: &[u8], chance: &mut Chance) -> i128 {
    match part.first() {
        Some(&region) if region < 5 && !chance.one_in(5) => i128::from(region),
        _ => chance.between(0, 4),
    }
}

fn any_bytes(chance: &mut Chance) -> Vec<u8> {
    let length = chance.between(0, 400);
    (0..length).map(|_| chance.between(0, 255) as u8).collect()
}

fn made_part(kind: &str, chance: &mut Chance) -> Vec<u8> {
    let (class, _) = chance.pick(&CLASSES);
    let book = make(chance.draw(), class, Some(5)).expect("a class of CLASSES");
    let mut bytes = to_bytes(&book);
    if chance.one_in(2) {
        bytes = damage(chance.draw(), &bytes);
    }
    let (start, size) = match kind {
        "contents" => (0, 56),
        "settings" => (56, 8),
        "frequency" => (64 + 368 * chance.place(5), 368),
        "unit" => (1_904 + 372 * chance.place(5), 372),
        _ => (1_904 + 372 * 5, 24),
    };
    if let (Some(kind), true, true) = (Kind::named(kind), bytes.len() >= start + size, chance.one_in(2)) {
        spoil_once_or_twice(chance, kind, &mut bytes[start..start + size]);
    }
    let length = if chance.one_in(4) { chance.between(0, size as i128 + 30) as usize } else { size };
    bytes.into_iter().skip(start).take(length).collect()
}
