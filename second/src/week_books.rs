//! Books one after another for `week`: whole weeks, weeks whose performances are chosen to the last digit,
//! at every edge of the program, and damaged ones. A turn names one.

use std::collections::BTreeSet;

use crate::book::*;
use crate::chance::Chance;
use crate::damage::damage;
use crate::make::{make, CLASSES, GROUPED};
use crate::quantities::*;
use crate::replay::NUMBERS_LIMIT;
use crate::week::INTERVALS_LIMIT;
use crate::write::*;

/// A week to try: how it is called, and its bytes.
pub struct WeekTrial {
    pub name: String,
    pub bytes: Vec<u8>,
}

/// The measures of a region whose units perform exactly as chosen: a small one, a middle one, and large ones.
const FINE: i128 = 1;
const MIDDLE: i128 = 10_001;

fn chosen_measure(point: usize) -> i128 {
    match point {
        0 => FINE,
        1 => MIDDLE,
        _ => MEASURE_LIMIT,
    }
}

/// What a performance turns with its direction: the measures of lower are below zero.
fn sign_of(direction: Direction) -> i128 {
    match direction {
        Direction::Raise => 1,
        Direction::Lower => -1,
    }
}

/// A book of this direction alone in this region: the other direction is unreliable there.
fn book_of(direction: Direction, region: usize) -> Book {
    let mut book = base_book();
    for (point, frequency) in book.frequencies[region].frequencies.iter_mut().enumerate() {
        *frequency = FREQUENCY_NOMINAL - sign_of(direction) * chosen_measure(point);
    }
    book.requirements.push(base_requirement(1, 1 << region, direction));
    book
}

/// The largest performance that `chosen_unit` can have, either way.
pub const CHOSEN_LIMIT: i128 = 2_500_000_000_000_000;

/// A unit that has exactly this performance in a book of its direction. Its end, 0 to 74, brings the
/// remainder by 75 about; then the large measures give the most of it, the middle one and the small one the
/// rest.
pub fn chosen_unit(number: i128, region: usize, direction: Direction, performance: i128) -> Unit {
    let mut unit = base_unit(number, region);
    let wanted = sign_of(direction) * performance;
    let along: i128 = (0..POINTS).map(|point| chosen_measure(point) * (point as i128 + 1)).sum();
    unit.end = (0..75).find(|end| (wanted + end * along) % 75 == 0).expect("an end for each remainder");
    let readings = (wanted + unit.end * along) / 75;
    let large = nearest(readings, MEASURE_LIMIT);
    let left = readings - large * MEASURE_LIMIT;
    unit.readings[1] = nearest(left, MIDDLE);
    unit.readings[0] = left - unit.readings[1] * MIDDLE;
    let points = POINTS as i128 - 2;
    for (place, reading) in unit.readings[2..].iter_mut().enumerate() {
        *reading = large.div_euclid(points) + i128::from((place as i128) < large.rem_euclid(points));
    }
    unit
}

/// A unit as far from its trajectory as can be, and its performance in a book of this direction.
fn heavy_unit(number: i128, region: usize, direction: Direction) -> (Unit, i128) {
    let mut unit = base_unit(number, region);
    let reading = sign_of(direction) * POWER_LIMIT;
    (unit.start, unit.end, unit.readings) = (-reading, -reading, [reading; POINTS]);
    let measures: i128 = (0..POINTS).map(chosen_measure).sum();
    (unit, measures * 75 * 2 * POWER_LIMIT)
}

/// So many different numbers, rising.
fn draw_numbers(chance: &mut Chance, count: usize) -> Vec<i128> {
    let mut all = BTreeSet::new();
    while all.len() < count {
        let any = chance.between(0, 65_535);
        let near = chance.between(1, 2 * count as i128);
        all.insert(chance.pick(&[0, 1, 65_535, any, near, near]));
    }
    all.into_iter().collect()
}

/// Any so many of these numbers, still rising.
fn some_of(chance: &mut Chance, numbers: &[i128], count: usize) -> Vec<i128> {
    let mut left = numbers.to_vec();
    while left.len() > count {
        left.remove(chance.place(left.len()));
    }
    left
}

/// A made book whose units have their numbers from a pool, so that they come and go from book to book.
fn pooled_book(chance: &mut Chance, pool: &[i128], class: &str, roster: usize) -> Book {
    let roster = roster.min(pool.len());
    let mut book = make(chance.draw(), class, Some(roster)).expect("a class of the list");
    for (unit, number) in book.units.iter_mut().zip(some_of(chance, pool, roster)) {
        unit.number = number;
    }
    if chance.one_in(2) {
        book.requirements.truncate(1);
    }
    book
}

fn any_class(chance: &mut Chance) -> &'static str {
    chance.pick(&CLASSES).0
}

/// Mostly one class, so that several intervals are live, with books of others between.
fn whole_books(chance: &mut Chance) -> Vec<Vec<u8>> {
    let count = chance.pick(&[0, 1, 1, 2, 2, 2, 3, 3, 3, 7]);
    let size = chance.pick(&[1, 3, 5, 8, 13]);
    let pool = draw_numbers(chance, size);
    let class = any_class(chance);
    let mut all = Vec::new();
    for _ in 0..count {
        let other = any_class(chance);
        let class = chance.pick(&[class, class, class, other]);
        let roster = chance.pick(&[0, 1, 2, 3, 5, 7]);
        all.push(to_bytes(&pooled_book(chance, &pool, class, roster)));
    }
    all
}

/// Performances whose total below zero is a half of their number off a whole average, or next to it.
fn performances_at_a_half(chance: &mut Chance, count: usize) -> Vec<i128> {
    let most = chance.pick(&[3, 1_000, CHOSEN_LIMIT / 4]);
    let mut all: Vec<i128> = (0..count).map(|_| chance.between(-most, most)).collect();
    let total: i128 = all.iter().map(|&performance| performance.min(0)).sum();
    let count = count as i128;
    let wanted = count / 2 + chance.pick(&[-1, 0, 0, 0, 1]);
    let short = (wanted + total).rem_euclid(count);
    let first = all[0].min(0);
    all[0] = first - short;
    all
}

/// One unit whose performances are chosen, absent, bad or in the other direction in some books.
fn chosen_books(chance: &mut Chance) -> Vec<Vec<u8>> {
    let live = chance.pick(&[1, 2, 2, 3, 4, 6]);
    let direction = chance.pick(&Direction::BOTH);
    let number = draw_numbers(chance, 1)[0];
    let mut all = Vec::new();
    for performance in performances_at_a_half(chance, live) {
        let region = chance.pick(&[2, 2, 2, 4]);
        let mut book = book_of(direction, region);
        book.units.push(chosen_unit(number, region, direction, performance));
        all.push(to_bytes(&book));
        if chance.one_in(4) {
            let other = chance.pick(&Direction::BOTH);
            let mut book = book_of(other, region);
            let mut unit = chosen_unit(number, region, other, -1);
            match chance.place(3) {
                0 => {}
                1 => book.units.push(unit),
                _ => {
                    (unit.good[74], unit.readings[74]) = (false, 0);
                    book.units.push(unit);
                }
            }
            all.push(to_bytes(&book));
        }
    }
    all
}

/// A residual at the limit of its book field, or where its average is rounded to it or to one below.
fn books_at_the_residuals_limit(chance: &mut Chance) -> Vec<Vec<u8>> {
    let count = chance.between(1, 4);
    let direction = chance.pick(&Direction::BOTH);
    let region = chance.place(REGIONS);
    let half = count / 2;
    let mut beyond = chance.pick(&[0, -1, half - 1, half, half + 1, (count + 1) / 2, (count - 1) / 2, count]);
    let mut all = Vec::new();
    for place in 1..=count {
        let mut here = chance.any_size(100_000_000_000_000) * chance.pick(&[1, -1]);
        if place == count {
            here = beyond;
        }
        beyond -= here;
        let mut wanted = -RESIDUAL_DEFAULT_LOWEST + here;
        let mut book = book_of(direction, region);
        for number in 1..=9 {
            let (unit, performance) = heavy_unit(number, region, direction);
            book.units.push(unit);
            wanted -= performance;
        }
        book.units.push(chosen_unit(10, region, direction, wanted));
        all.push(to_bytes(&book));
    }
    all
}

/// So many parts of at most the largest chosen performance that add up to a total.
fn performances_of_a_group(chance: &mut Chance, total: i128, count: usize) -> Vec<i128> {
    let mut left = total;
    let mut all = Vec::new();
    for more in (1..count as i128).rev() {
        let reach = (more + 1) * CHOSEN_LIMIT - left.abs();
        let stray = chance.any_size(reach.min(CHOSEN_LIMIT) / 4) * chance.pick(&[1, -1]);
        let part = (left / (more + 1) + stray).clamp(-CHOSEN_LIMIT, CHOSEN_LIMIT);
        let part = part.clamp(left - more * CHOSEN_LIMIT, left + more * CHOSEN_LIMIT);
        all.push(part);
        left -= part;
    }
    all.push(left);
    all
}

/// A group that has exactly this performance in a book of its direction: generators and loads, numbered from its own number on.
fn chosen_group(
    chance: &mut Chance,
    number: i128,
    region: usize,
    direction: Direction,
    total: i128,
) -> Vec<Unit> {
    let fewest = (total.abs() / CHOSEN_LIMIT) as usize + 1;
    let count = fewest + chance.pick(&[0, 0, 1, 2, 5]);
    let group = chance.between(1, 65_535);
    let performances = performances_of_a_group(chance, total, count);
    let unit = |(place, performance): (usize, i128)| {
        let is_load = chance.one_in(2);
        let own = if is_load { -performance } else { performance };
        let unit = chosen_unit(number + place as i128, region, direction, own);
        Unit { load: is_load, group, ..unit }
    };
    performances.into_iter().enumerate().map(unit).collect()
}

/// A group whose average is at the limit of its book field, or is rounded to it or to one below; from book to book it is of other
/// units, and now and then it is bad or a single unit.
fn books_at_a_groups_limit(chance: &mut Chance) -> Vec<Vec<u8>> {
    let count = chance.between(1, 4);
    let direction = chance.pick(&Direction::BOTH);
    let region = chance.place(REGIONS);
    let number = chance.between(0, 65_000);
    let half = count / 2;
    let mut beyond = chance.pick(&[0, -1, half - 1, half, half + 1, (count + 1) / 2, (count - 1) / 2, count]);
    let mut all = Vec::new();
    for place in 1..=count {
        let stray = chance.any_size(CHOSEN_LIMIT) * chance.pick(&[1, -1]);
        let here = if place == count { beyond } else { stray };
        beyond -= here;
        let mut book = book_of(direction, region);
        book.units = chosen_group(chance, number, region, direction, UNIT_DEFAULT_LOWEST - here);
        all.push(to_bytes(&book));
        if chance.one_in(4) {
            let place = chance.place(book.units.len());
            (book.units[place].good[74], book.units[place].readings[74]) = (false, 0);
            all.push(to_bytes(&book));
        }
        if chance.one_in(8) {
            let mut book = book_of(direction, region);
            book.units = vec![chosen_unit(number, region, direction, 1)];
            all.push(to_bytes(&book));
        }
    }
    all
}

/// The books of a week with their units joined to groups, other ones in each book.
fn books_of_groups(chance: &mut Chance) -> Vec<Vec<u8>> {
    let pool = draw_numbers(chance, 13);
    let class = chance.pick(&GROUPED);
    let count = chance.pick(&[1, 2, 2, 3, 3, 7]);
    let book = |chance: &mut Chance| {
        let roster = chance.pick(&[1, 2, 3, 5, 7, 13]);
        to_bytes(&pooled_book(chance, &pool, class, roster))
    };
    (0..count).map(|_| book(chance)).collect()
}

/// As many members as a week may have, or one more, in two books of more units than that: a group's number alone counts.
fn books_of_many_members(chance: &mut Chance) -> Vec<Vec<u8>> {
    let members = NUMBERS_LIMIT as i128 + chance.between(-1, 1);
    let first = chance.between(200, 311);
    let grouped = |chance: &mut Chance, from: i128, to: i128| {
        let mut room = NUMBERS_LIMIT as i128 - (to - from);
        let mut units = Vec::new();
        for member in from..to {
            let more = if room > 0 { chance.between(0, 1) } else { 0 };
            room -= more;
            for place in 0..=more {
                let group = if more > 0 { 1 + member } else { 0 };
                units.push(Unit { group, ..base_unit(2 * member + place, (member % 5) as usize) });
            }
        }
        let mut book = idle_book(&[]);
        book.units = units;
        to_bytes(&book)
    };
    let mut all = vec![grouped(chance, 0, first), grouped(chance, first, members)];
    if chance.one_in(2) {
        all.swap(0, 1);
    }
    // The others of a group as members of their own: of book 1 no more than there is room for.
    if members < NUMBERS_LIMIT as i128 {
        all.push(to_bytes(&idle_book(&[2 * chance.place(3) as i128 + 1])));
    }
    all
}

/// A book of so many units that do nothing.
fn idle_book(numbers: &[i128]) -> Book {
    let mut book = base_book();
    book.units = numbers.iter().map(|&number| base_unit(number, (number % 5) as usize)).collect();
    book.requirements.push(base_requirement(1, 31, Direction::Raise));
    book
}

/// Around as many different numbers as there may be, over two or three books; the book with one too many may
/// have a refusal of its own, which comes first.
fn books_of_many_numbers(chance: &mut Chance) -> Vec<Vec<u8>> {
    let count = NUMBERS_LIMIT + chance.pick(&[0, 1, 1, 1]) - chance.pick(&[0, 0, 0, 1]);
    let pool = draw_numbers(chance, count);
    let apart = chance.pick(&[1, 2, 100]);
    let late = some_of(chance, &pool, apart);
    let early: Vec<i128> = pool.iter().copied().filter(|number| !late.contains(number)).collect();
    let again = chance.place(5);
    let mut second: Vec<i128> = [&late[..], &some_of(chance, &early, again)].concat();
    second.sort_unstable();
    let mut second = idle_book(&second);
    let own = chance.place(6);
    if own == 0 {
        second.requirements[0].price = PRICE_LIMIT + 1;
    }
    let mut second = to_bytes(&second);
    match own {
        1 => second.truncate(second.len() - 1),
        2 => second = damage(chance.draw(), &second),
        _ => {}
    }
    let mut all = vec![to_bytes(&idle_book(&early)), second];
    if own == 3 {
        all.push(to_bytes(&idle_book(&late)));
    }
    if own == 4 {
        all.swap(0, 1);
    }
    all
}

/// So many small books, a few different ones in any order.
fn many_books(chance: &mut Chance, count: usize) -> Vec<Vec<u8>> {
    let pool = draw_numbers(chance, 3);
    let few: Vec<Vec<u8>> = (0..7)
        .map(|_| {
            let class = any_class(chance);
            let roster = chance.pick(&[0, 0, 1, 2]);
            let mut book = pooled_book(chance, &pool, class, roster);
            book.requirements.truncate(1);
            to_bytes(&book)
        })
        .collect();
    (0..count).map(|_| few[chance.place(few.len())].clone()).collect()
}

/// The bytes of books, one after another, broken somewhere: in a book, between two, or at the end.
fn damaged(chance: &mut Chance, mut books: Vec<Vec<u8>>) -> Vec<u8> {
    if books.is_empty() {
        let length = chance.pick(&[1, 4, 55, 56, 57]);
        return (0..length).map(|_| chance.between(0, 255) as u8).collect();
    }
    let place = chance.place(books.len());
    match chance.place(8) {
        0..=3 => books[place] = damage(chance.draw(), &books[place]),
        4 => {
            let mut whole = books.concat();
            whole.truncate(chance.place(whole.len()));
            return whole;
        }
        5 => {
            // Fewer bytes than a table of contents has, after the last book or between two.
            let length = chance.pick(&[1, 2, 8, 54, 55, 56]);
            let begun: Vec<u8> = books[0][..length].to_vec();
            let any: Vec<u8> = (0..length).map(|_| chance.between(0, 255) as u8).collect();
            let added = if chance.one_in(2) { begun } else { any };
            let at = if chance.one_in(3) { place } else { books.len() };
            books.insert(at, added);
        }
        6 => {
            // A book cut, as if the next one came too early.
            let length = chance.place(books[place].len());
            books[place].truncate(length);
        }
        _ => {
            let mut whole = books.concat();
            let at = chance.place(whole.len());
            whole[at] = chance.between(0, 255) as u8;
            return whole;
        }
    }
    books.concat()
}

/// The few turns of a week's whole length.
fn longest(turn: u64, chance: &mut Chance) -> Option<(&'static str, Vec<u8>)> {
    let mut books = |count: usize| many_books(chance, count);
    Some(match turn % 500 {
        101 => ("longest", books(INTERVALS_LIMIT).concat()),
        102 => ("longest-and-one", books(INTERVALS_LIMIT + 1).concat()),
        103 => {
            let byte = vec![(turn / 500) as u8];
            ("longest-and-a-byte", [books(INTERVALS_LIMIT).concat(), byte].concat())
        }
        104 => {
            let mut whole = books(INTERVALS_LIMIT).concat();
            whole.truncate(whole.len() - 1);
            ("longest-less-a-byte", whole)
        }
        _ => return None,
    })
}

/// The week of a turn; every third is damaged.
pub fn trial(seed: u64, turn: u64) -> WeekTrial {
    let mut chance = Chance::new(seed.wrapping_mul(0x1_0000_0001).wrapping_add(turn));
    let chance = &mut chance;
    if let Some((kind, bytes)) = longest(turn, chance) {
        return WeekTrial { name: format!("{seed}-{turn}-{kind}"), bytes };
    }
    let (kind, books) = match turn % 40 {
        5 | 25 => ("numbers", books_of_many_numbers(chance)),
        15 | 35 => ("members", books_of_many_members(chance)),
        10 => {
            let count = chance.pick(&[99, 100, 101, 101, 200]);
            ("many", many_books(chance, count))
        }
        place if place % 5 == 2 => ("residual", books_at_the_residuals_limit(chance)),
        place if place % 5 == 3 => ("group", books_at_a_groups_limit(chance)),
        place if place % 5 == 1 => ("groups", books_of_groups(chance)),
        place if place % 5 == 4 => ("chosen", chosen_books(chance)),
        _ => ("whole", whole_books(chance)),
    };
    if turn % 3 == 2 {
        WeekTrial { name: format!("{seed}-{turn}-{kind}-damaged"), bytes: damaged(chance, books) }
    } else {
        WeekTrial { name: format!("{seed}-{turn}-{kind}"), bytes: books.concat() }
    }
}

/// A book of a direction in a region, with units of chosen performances.
fn book_with(direction: Direction, region: usize, units: &[(i128, i128)]) -> Book {
    let mut book = book_of(direction, region);
    book.units = units
        .iter()
        .map(|&(number, performance)| chosen_unit(number, region, direction, performance))
        .collect();
    book
}

/// Units that come and go, one that is met only while it is not live, halves, a region without units.
fn stored_lines() -> Vec<u8> {
    use Direction::{Lower, Raise};
    let mut second = book_with(Lower, 0, &[(7, -5), (12, -9)]);
    second.units[1].good[74] = false;
    second.units[1].readings[74] = 0;
    let mut third = book_with(Raise, 0, &[(9, -4)]);
    third.units.push(base_unit(65_535, 3));
    let books = [
        book_with(Raise, 0, &[(7, -3), (9, 1_000)]),
        second,
        third,
        book_with(Raise, 0, &[(7, -4), (9, -2_000_000_000_000_000)]),
        book_of(Lower, 2),
    ];
    books.iter().flat_map(to_bytes).collect()
}

/// The second of three books is refused.
fn stored_refusal() -> Vec<u8> {
    use Direction::Raise;
    let units = [(7, -3), (9, 1_000)];
    let mut second = book_with(Raise, 0, &units);
    second.units.swap(0, 1);
    [book_with(Raise, 0, &units), second, book_with(Raise, 0, &units)].iter().flat_map(to_bytes).collect()
}

/// The runs that are kept as files, by name: small, and made here so that they can be made again.
pub fn stored() -> [WeekTrial; 2] {
    [("lines", stored_lines()), ("refused", stored_refusal())]
        .map(|(name, bytes)| WeekTrial { name: format!("week_{name}"), bytes })
}
