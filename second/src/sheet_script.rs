//! Sheets of every kind (request R-12): performances of many sorts, and factors that are our own by either rule of
//! the share, placed otherwise, or altered. A seed and a number name one.

use std::io::{self, Write};

use crate::cents::{negative_weights, positive_weights, share_both_signs};
use crate::chance::Chance;
use crate::quantities::*;
use crate::share::share_earlier_first;
use crate::sheet::SHEET_LIMIT;
use crate::unequal::{billionths_over, enlarged};

const I64_LEAST: i128 = i64::MIN as i128;
const I64_MOST: i128 = i64::MAX as i128;

#[derive(Clone, Debug, PartialEq, Eq)]
pub struct Sheet {
    pub performances: Vec<i128>,
    pub factors: Vec<i128>,
}

/// Numbers in one line, a space between two.
pub fn line_of(numbers: &[i128]) -> String {
    numbers.iter().map(|number| number.to_string()).collect::<Vec<_>>().join(" ")
}

impl Sheet {
    /// Its two lines, as `sheet` reads them.
    pub fn text(&self) -> String {
        format!("{}\n{}\n", line_of(&self.performances), line_of(&self.factors))
    }
}

const SHORT: [usize; 10] = [0, 1, 2, 2, 3, 5, 5, 7, 7, 13];
const LONG: [usize; 6] = [76, 477, 509, 511, 512, 513];

fn draw_length(chance: &mut Chance) -> usize {
    if chance.one_in(12) {
        chance.pick(&LONG)
    } else {
        chance.pick(&SHORT)
    }
}

/// Weights for so many members of one side, within the limit of W.
type Weights = fn(&mut Chance, usize) -> Vec<i128>;

fn small(chance: &mut Chance, count: usize) -> Vec<i128> {
    (0..count).map(|_| chance.between(1, 4)).collect()
}

fn of_any_size(chance: &mut Chance, count: usize) -> Vec<i128> {
    let most = chance.any_size(SHARE_WEIGHT_LIMIT / count.max(1) as i128).max(1);
    (0..count).map(|_| chance.any_size(most)).collect()
}

/// One far larger than the others, whose shares are about a billionth or less.
fn one_large(chance: &mut Chance, count: usize) -> Vec<i128> {
    let mut weights: Vec<i128> = (0..count).map(|_| chance.between(1, 8)).collect();
    if count > 0 {
        weights[chance.place(count)] =
            chance.pick(&[FACTOR_ONE - 10, 4 * FACTOR_ONE, SHARE_WEIGHT_LIMIT / 2]);
    }
    weights
}

fn equal(chance: &mut Chance, count: usize) -> Vec<i128> {
    vec![chance.any_size(SHARE_WEIGHT_LIMIT / count.max(1) as i128).max(1); count]
}

/// So many numbers that add up to `whole`.
fn adding_up_to(chance: &mut Chance, whole: i128, count: usize) -> Vec<i128> {
    let mut parts: Vec<i128> = (0..count).map(|_| chance.any_size(whole / count as i128)).collect();
    if count > 0 {
        let place = chance.place(count);
        parts[place] = 0;
        parts[place] = whole - parts.iter().sum::<i128>();
    }
    parts
}

/// Each share is a whole number of billionths.
fn exact(chance: &mut Chance, count: usize) -> Vec<i128> {
    let times = chance.any_size(SHARE_WEIGHT_LIMIT / FACTOR_ONE).max(1);
    adding_up_to(chance, FACTOR_ONE, count).iter().map(|part| times * part).collect()
}

/// Equal remainders of different weights: the two rules of the share differ.
fn tied(chance: &mut Chance, count: usize) -> Vec<i128> {
    if count < 2 {
        return of_any_size(chance, count);
    }
    let weights = billionths_over(chance, count);
    enlarged(chance, &weights, SHARE_WEIGHT_LIMIT)
}

/// W is 1.
fn one_in_all(chance: &mut Chance, count: usize) -> Vec<i128> {
    let mut weights = vec![0; count];
    if count > 0 {
        weights[chance.place(count)] = 1;
    }
    weights
}

/// W is a power of 2, so that far factors have the same low bits times W.
fn power_of_two(chance: &mut Chance, count: usize) -> Vec<i128> {
    let whole = 1 << chance.between(2, 62);
    adding_up_to(chance, whole, count)
}

/// W is the largest that there may be.
fn at_the_limit(chance: &mut Chance, count: usize) -> Vec<i128> {
    adding_up_to(chance, SHARE_WEIGHT_LIMIT, count)
}

/// The number below `modulus` whose product with `number` leaves 1; the two have no common factor.
fn inverse(number: i128, modulus: i128) -> i128 {
    let (mut large, mut small) = (modulus, number % modulus);
    let (mut of_large, mut of_small) = (0, 1);
    while small > 0 {
        let times = large / small;
        (large, small) = (small, large - times * small);
        (of_large, of_small) = (of_small, of_large - times * of_small);
    }
    of_large.rem_euclid(modulus)
}

/// One share is 1 to 3 parts of W above or below a whole number of billionths.
fn nearly_exact(chance: &mut Chance, count: usize) -> Vec<i128> {
    let whole = chance.any_size(SHARE_WEIGHT_LIMIT / 10 - 1) * 10 + chance.pick(&[1, 3, 7, 9]);
    if count < 2 || whole < 1_000 {
        return of_any_size(chance, count);
    }
    let part = chance.pick(&[1, 2, 3, -1, -2, -3]);
    let near = (part * inverse(FACTOR_ONE, whole)).rem_euclid(whole);
    let mut weights = adding_up_to(chance, whole - near, count - 1);
    weights.insert(chance.place(count), near);
    weights
}

const SORTS: [Weights; 16] = [
    small,
    small,
    of_any_size,
    of_any_size,
    one_large,
    equal,
    exact,
    nearly_exact,
    nearly_exact,
    tied,
    tied,
    tied,
    tied,
    one_in_all,
    power_of_two,
    at_the_limit,
];

/// Members of both signs in any order, or of one alone, often with some of 0 among them.
fn on_two_sides(chance: &mut Chance, length: usize, weights: Weights) -> Vec<i128> {
    let some_idle = chance.one_in(3);
    let signs: &[i128] = chance.pick(&[&[1, -1], &[1, -1], &[1, -1], &[1, -1, -1, -1], &[1], &[-1]]);
    let sign_of: Vec<i128> =
        (0..length).map(|_| if some_idle && chance.one_in(4) { 0 } else { chance.pick(signs) }).collect();
    let mut performances = vec![0; length];
    for sign in [1, -1] {
        let places: Vec<usize> = (0..length).filter(|&place| sign_of[place] == sign).collect();
        for (&place, weight) in places.iter().zip(weights(chance, places.len())) {
            performances[place] = sign * weight;
        }
    }
    performances
}

fn draw_performances(chance: &mut Chance) -> Vec<i128> {
    if chance.one_in(40) {
        // Document 01's listing, and three members about whom the two rules of the share differ.
        return chance
            .pick(&[
                [11_250_000_000, -3_375_000_000, -7_875_000_000],
                [4, 12, 7_999_999_984],
                [-12, -7_999_999_984, -4],
            ])
            .to_vec();
    }
    let length = draw_length(chance);
    let weights = chance.pick(&SORTS);
    on_two_sides(chance, length, weights)
}

/// Factors by the rule of the share.
pub fn own_factors(performances: &[i128]) -> Vec<i128> {
    share_both_signs(FACTOR_ONE, performances).expect("within the limit of W")
}

/// Factors by the rule before request R-9.
pub fn earlier_factors(performances: &[i128]) -> Vec<i128> {
    let [credits, debits] = [positive_weights(performances), negative_weights(performances)]
        .map(|weights| share_earlier_first(FACTOR_ONE, &weights).expect("within the limit of W").amounts);
    credits.iter().zip(&debits).map(|(credit, debit)| credit - debit).collect()
}

/// One side's whole parts, then one each to so many of the members with a remainder as are left over, or `more`
/// than that, or fewer: any members, whatever their remainders.
fn placed_at_will(chance: &mut Chance, weights: &[i128], more: i128) -> Vec<i128> {
    let total: i128 = weights.iter().sum();
    if total == 0 {
        return vec![0; weights.len()];
    }
    let mut amounts: Vec<i128> = weights.iter().map(|weight| FACTOR_ONE * weight / total).collect();
    let mut waiting: Vec<usize> =
        (0..weights.len()).filter(|&member| FACTOR_ONE * weights[member] % total > 0).collect();
    let left_over = FACTOR_ONE - amounts.iter().sum::<i128>();
    for _ in 0..(left_over + more).clamp(0, waiting.len() as i128) {
        amounts[waiting.swap_remove(chance.place(waiting.len()))] += 1;
    }
    amounts
}

fn both_placed_at_will(chance: &mut Chance, performances: &[i128], more: [i128; 2]) -> Vec<i128> {
    let credits = placed_at_will(chance, &positive_weights(performances), more[0]);
    let debits = placed_at_will(chance, &negative_weights(performances), more[1]);
    credits.iter().zip(&debits).map(|(credit, debit)| credit - debit).collect()
}

/// Factors of given performances, whose sides are within the limit of W.
type Factors = fn(&mut Chance, &[i128]) -> Vec<i128>;

fn own(_: &mut Chance, performances: &[i128]) -> Vec<i128> {
    own_factors(performances)
}

fn earlier(_: &mut Chance, performances: &[i128]) -> Vec<i128> {
    earlier_factors(performances)
}

fn otherwise_placed(chance: &mut Chance, performances: &[i128]) -> Vec<i128> {
    both_placed_at_will(chance, performances, [0, 0])
}

fn any_right(chance: &mut Chance, performances: &[i128]) -> Vec<i128> {
    let factors = chance.pick(&[own as Factors, earlier, otherwise_placed]);
    factors(chance, performances)
}

/// By how much a side's sum is off: mostly by one, or as far as right members allow.
fn off(chance: &mut Chance) -> i128 {
    chance.pick(&[1, -1, 1, -1, 2, -2, 600, -600])
}

fn positive_off(chance: &mut Chance, performances: &[i128]) -> Vec<i128> {
    let more = [off(chance), 0];
    both_placed_at_will(chance, performances, more)
}

fn negative_off(chance: &mut Chance, performances: &[i128]) -> Vec<i128> {
    let more = [0, off(chance)];
    both_placed_at_will(chance, performances, more)
}

fn both_off(chance: &mut Chance, performances: &[i128]) -> Vec<i128> {
    let more = [off(chance), off(chance)];
    both_placed_at_will(chance, performances, more)
}

fn move_at(factors: &mut [i128], place: usize, by: i128) {
    factors[place] = (factors[place] + by).clamp(I64_LEAST, I64_MOST);
}

fn move_any(chance: &mut Chance, factors: &mut [i128], by: i128) {
    if !factors.is_empty() {
        let by = by * chance.pick(&[1, -1]);
        move_at(factors, chance.place(factors.len()), by);
    }
}

fn moved_by_one(chance: &mut Chance, performances: &[i128]) -> Vec<i128> {
    let mut factors = any_right(chance, performances);
    move_any(chance, &mut factors, 1);
    factors
}

fn moved_by_two(chance: &mut Chance, performances: &[i128]) -> Vec<i128> {
    let mut factors = any_right(chance, performances);
    move_any(chance, &mut factors, 2);
    factors
}

fn moved_by_much(chance: &mut Chance, performances: &[i128]) -> Vec<i128> {
    let mut factors = any_right(chance, performances);
    let by = chance.any_size(I64_MOST);
    move_any(chance, &mut factors, by);
    factors
}

fn two_moved(chance: &mut Chance, performances: &[i128]) -> Vec<i128> {
    let mut factors = moved_by_one(chance, performances);
    move_any(chance, &mut factors, 1);
    factors
}

/// One up and one down, mostly of the same side: the sums are what they were.
fn sum_kept(chance: &mut Chance, performances: &[i128]) -> Vec<i128> {
    let mut factors = any_right(chance, performances);
    let sign = chance.pick(&[1, -1]);
    let side: Vec<usize> = (0..factors.len()).filter(|&place| performances[place].signum() == sign).collect();
    if side.len() >= 2 {
        let by = chance.pick(&[1, 1, 1, 2, 1_000]);
        let first = chance.place(side.len());
        let second = (first + chance.between(1, side.len() as i128 - 1) as usize) % side.len();
        move_at(&mut factors, side[first], by);
        move_at(&mut factors, side[second], -by);
    } else {
        move_any(chance, &mut factors, 1);
    }
    factors
}

/// A side is off although its members are right, and a late member is wrong.
fn wrong_after_an_off_side(chance: &mut Chance, performances: &[i128]) -> Vec<i128> {
    let choices = chance.pick(&[positive_off as Factors, negative_off, both_off]);
    let mut factors = choices(chance, performances);
    let length = factors.len();
    if length > 0 {
        let place = length - 1 - chance.place(length.div_ceil(2));
        let by = chance.pick(&[2, -2]);
        move_at(&mut factors, place, by);
    }
    factors
}

/// Every sign is turned.
fn sides_swapped(chance: &mut Chance, performances: &[i128]) -> Vec<i128> {
    any_right(chance, performances).iter().map(|factor| -factor).collect()
}

/// Two neighbours, or any two, have each other's factor.
fn exchanged(chance: &mut Chance, performances: &[i128]) -> Vec<i128> {
    let mut factors = any_right(chance, performances);
    if factors.len() >= 2 {
        let first = chance.place(factors.len() - 1);
        let any = chance.place(factors.len());
        let second = chance.pick(&[first + 1, any]);
        factors.swap(first, second);
    }
    factors
}

/// A member whose performance is 0 has a factor, where there is such a member.
fn idle_with_a_factor(chance: &mut Chance, performances: &[i128]) -> Vec<i128> {
    let mut factors = any_right(chance, performances);
    let idle: Vec<usize> = (0..factors.len()).filter(|&place| performances[place] == 0).collect();
    if !idle.is_empty() {
        let place = chance.pick(&idle);
        let any = chance.any_size(I64_MOST).max(1);
        factors[place] = chance.pick(&[1, -1, FACTOR_ONE, -FACTOR_ONE, any, I64_LEAST]);
    }
    factors
}

/// A factor as far off as can be, or so far that the lowest 64 bits of its product with W are those of a right one.
fn far_off(chance: &mut Chance, performances: &[i128]) -> Vec<i128> {
    let mut factors = any_right(chance, performances);
    if factors.is_empty() {
        return factors;
    }
    let place = chance.place(factors.len());
    let side =
        if performances[place] < 0 { negative_weights(performances) } else { positive_weights(performances) };
    let total: i128 = side.iter().sum();
    let step = 1_i128 << (64 - total.trailing_zeros().min(64));
    let turn = chance.pick(&[1, -1]);
    let same_bits = factors[place] + turn * step;
    factors[place] = if (I64_LEAST..=I64_MOST).contains(&same_bits) && chance.between(1, 4) > 1 {
        same_bits
    } else {
        chance.pick(&[I64_LEAST, I64_MOST, -FACTOR_ONE - 1, FACTOR_ONE + 1, 1 << 32, -(1 << 32)])
    };
    factors
}

/// Factors that nobody worked out: of any size, all alike, or all 0.
fn drawn(chance: &mut Chance, performances: &[i128]) -> Vec<i128> {
    let any = chance.any_size(FACTOR_ONE);
    let alike = chance.pick(&[0, any, -any]);
    let same = chance.one_in(2);
    performances
        .iter()
        .map(|performance| if same { alike } else { performance.signum() * chance.any_size(2 * FACTOR_ONE) })
        .collect()
}

/// How the factors come about, and how often.
const FACTORS: [(&str, usize, Factors); 17] = [
    ("own", 5, own),
    ("earlier", 5, earlier),
    ("otherwise-placed", 4, otherwise_placed),
    ("positive-off", 1, positive_off),
    ("negative-off", 1, negative_off),
    ("both-off", 1, both_off),
    ("moved-by-one", 2, moved_by_one),
    ("moved-by-two", 1, moved_by_two),
    ("moved-by-much", 1, moved_by_much),
    ("two-moved", 1, two_moved),
    ("sum-kept", 2, sum_kept),
    ("wrong-after-an-off-side", 2, wrong_after_an_off_side),
    ("sides-swapped", 1, sides_swapped),
    ("exchanged", 1, exchanged),
    ("idle-with-a-factor", 1, idle_with_a_factor),
    ("far-off", 1, far_off),
    ("drawn", 1, drawn),
];

/// Of a list of names, how often, and what: the entry at a turn, each as often as it says.
fn at_turn<T: Copy>(list: &[(&'static str, usize, T)], turn: usize) -> (&'static str, T) {
    let mut left = turn % turns_of(list);
    for &(name, times, what) in list {
        if left < times {
            return (name, what);
        }
        left -= times;
    }
    unreachable!("a turn below the sum of all")
}

fn turns_of<T>(list: &[(&'static str, usize, T)]) -> usize {
    list.iter().map(|(_, times, _)| times).sum()
}

/// Factors for performances that are there already, as those of a book are.
pub fn draw_factors(chance: &mut Chance, performances: &[i128]) -> (&'static str, Vec<i128>) {
    let (name, factors) = at_turn(&FACTORS, chance.place(turns_of(&FACTORS)));
    (name, factors(chance, performances))
}

fn of_both(performances: Vec<i128>, factors: impl FnOnce(&[i128]) -> Vec<i128>) -> Sheet {
    let factors = factors(&performances);
    Sheet { performances, factors }
}

fn empty(_: &mut Chance) -> Sheet {
    Sheet { performances: vec![], factors: vec![] }
}

/// Performances of 0 alone; now and then a factor among them.
fn all_idle(chance: &mut Chance) -> Sheet {
    let length = draw_length(chance);
    let mut factors = vec![0; length];
    if chance.one_in(3) {
        move_any(chance, &mut factors, 1);
    }
    Sheet { performances: vec![0; length], factors }
}

/// Whether a side has something left over to place.
fn has_left_over(weights: &[i128]) -> bool {
    let total: i128 = weights.iter().sum();
    total > 0 && weights.iter().any(|weight| FACTOR_ONE * weight % total > 0)
}

/// Drawn performances and factors, anew until each side that `factors` puts off has something left over, if a few
/// draws bring that about.
fn put_off(chance: &mut Chance, factors: Factors, positive: bool, negative: bool) -> Sheet {
    let mut performances = draw_performances(chance);
    for _ in 0..20 {
        let lacks_positive = positive && !has_left_over(&positive_weights(&performances));
        let lacks_negative = negative && !has_left_over(&negative_weights(&performances));
        if !lacks_positive && !lacks_negative {
            break;
        }
        performances = draw_performances(chance);
    }
    of_both(performances, |performances| factors(chance, performances))
}

fn positive_side(chance: &mut Chance) -> Sheet {
    put_off(chance, positive_off, true, false)
}

fn negative_side(chance: &mut Chance) -> Sheet {
    put_off(chance, negative_off, false, true)
}

fn both_sides(chance: &mut Chance) -> Sheet {
    put_off(chance, both_off, true, true)
}

/// A member of 0 is put among the others, and has a factor.
fn idle_member(chance: &mut Chance) -> Sheet {
    let mut performances = draw_performances(chance);
    let length = performances.len();
    if length > 0 {
        performances[chance.place(length)] = 0;
    }
    of_both(performances, |performances| idle_with_a_factor(chance, performances))
}

/// The limit of W on one side or on both.
fn limit(chance: &mut Chance) -> Sheet {
    let length = draw_length(chance).max(1);
    let performances = on_two_sides(chance, length, at_the_limit);
    of_both(performances, |performances| {
        let factors =
            chance.pick(&[any_right as Factors, any_right, moved_by_one, positive_off, negative_off]);
        factors(chance, performances)
    })
}

/// One past the limit of W on one side or on both; the factors are those before the one was added.
fn one_past_the_limit(chance: &mut Chance) -> Sheet {
    let mut sheet = limit(chance);
    let places: Vec<usize> =
        (0..sheet.performances.len()).filter(|&place| sheet.performances[place] != 0).collect();
    if !places.is_empty() {
        let place = chance.pick(&places);
        sheet.performances[place] += sheet.performances[place].signum();
    }
    sheet
}

/// The least and the greatest performance of 64 bits, alone, among others, or so many large ones that a sum in 64 bits
/// comes round again.
fn far_past_the_limit(chance: &mut Chance) -> Sheet {
    let extreme =
        chance.pick(&[I64_LEAST, I64_MOST, I64_LEAST + 1, SHARE_WEIGHT_LIMIT + 1, -SHARE_WEIGHT_LIMIT - 1]);
    let mut performances = draw_performances(chance);
    let length = performances.len();
    match chance.place(3) {
        0 => performances = vec![extreme],
        1 if length > 0 => performances[chance.place(length)] = extreme,
        _ => {
            let large = chance.pick(&[1 << 62, 1 << 61, 1 << 60, -(1 << 62), I64_LEAST, I64_MOST]);
            let times = chance.pick(&[2, 4, 5, 8, 9, 16, 17, 64]);
            performances = vec![large; times];
            performances.extend([1, -1]);
        }
    }
    of_both(performances, |performances| {
        let signs: Vec<i128> = performances.iter().map(|performance| performance.signum()).collect();
        own_factors(&signs)
    })
}

/// A factor or some are missing, or there are too many, now and then with a total past the limit of W as well.
fn lengths_differ(chance: &mut Chance) -> Sheet {
    let kind = chance.place(4);
    let mut sheet = if kind == 0 {
        one_past_the_limit(chance)
    } else {
        of_both(draw_performances(chance), |performances| any_right(chance, performances))
    };
    let length = sheet.factors.len();
    match chance.place(5) {
        0 if length > 0 => sheet.factors.truncate(chance.place(length)),
        1 if length > 0 => sheet.factors.truncate(length - 1),
        2 if length > 0 => {
            let place = chance.place(length);
            sheet.factors.remove(place);
        }
        3 if length < SHEET_LIMIT => sheet.factors.push(0),
        _ => sheet.performances.push(0),
    }
    sheet
}

/// 514 on one of the lists, or on both, or more.
fn too_long(chance: &mut Chance) -> Sheet {
    let over = SHEET_LIMIT + 1;
    let (performances, factors) = chance.pick(&[
        (over, over),
        (over, over),
        (SHEET_LIMIT, over),
        (over, SHEET_LIMIT),
        (over, SHEET_LIMIT),
        (0, over),
        (over, 0),
        (600, 600),
    ]);
    let weights = chance.pick(&[small as Weights, equal, one_in_all]);
    let mut sheet = of_both(on_two_sides(chance, performances, weights), own_factors);
    sheet.factors.resize(factors, 0);
    sheet
}

/// 513 of each: the longest sheet that is looked at.
fn longest(chance: &mut Chance) -> Sheet {
    let weights = chance.pick(&SORTS);
    let performances = on_two_sides(chance, SHEET_LIMIT, weights);
    of_both(performances, |performances| draw_factors(chance, performances).1)
}

type Made = fn(&mut Chance) -> Sheet;

/// Sheets that are made whole, and how often, beside those of drawn performances and `FACTORS`.
const MADE: [(&str, usize, Made); 12] = [
    ("positive-side", 3, positive_side),
    ("negative-side", 3, negative_side),
    ("both-sides", 1, both_sides),
    ("empty", 1, empty),
    ("all-idle", 1, all_idle),
    ("idle-member", 1, idle_member),
    ("limit", 2, limit),
    ("one-past-the-limit", 2, one_past_the_limit),
    ("far-past-the-limit", 1, far_past_the_limit),
    ("lengths-differ", 3, lengths_differ),
    ("too-long", 1, too_long),
    ("longest", 1, longest),
];

/// The turns after which each kind has come as often as its list says.
pub fn turns() -> usize {
    turns_of(&FACTORS) + turns_of(&MADE)
}

/// The names of all kinds.
pub fn kinds() -> Vec<&'static str> {
    let drawn = FACTORS.iter().map(|(name, _, _)| *name);
    drawn.chain(MADE.iter().map(|(name, _, _)| *name)).collect()
}

/// The nth sheet of a seed, with the name of its kind. The kinds come in turn, those of a name apart.
pub fn sheet(seed: u64, nth: u64) -> (&'static str, Sheet) {
    let mut chance = Chance::new(seed.wrapping_mul(0x1_0000_0001).wrapping_add(nth));
    // 19 has no factor in common with the number of turns, so that each of them comes.
    let turn = (nth % turns() as u64) as usize * 19 % turns();
    if turn < turns_of(&FACTORS) {
        let (name, factors) = at_turn(&FACTORS, turn);
        let performances = draw_performances(&mut chance);
        (name, of_both(performances, |performances| factors(&mut chance, performances)))
    } else {
        let (name, made) = at_turn(&MADE, turn - turns_of(&FACTORS));
        (name, made(&mut chance))
    }
}

/// So many sheets, two lines each.
pub fn write_sheets(count: u64, seed: u64, out: &mut impl Write) -> io::Result<()> {
    for nth in 0..count {
        out.write_all(sheet(seed, nth).1.text().as_bytes())?;
    }
    Ok(())
}
