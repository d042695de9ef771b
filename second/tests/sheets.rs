//! Is their factor sheet possible: worked sheets, the limits and the order of refusals, our own factors by either
//! rule of the share, the rule said in another way, the program's text and its books, and what the makers reach.

use std::collections::{BTreeMap, BTreeSet};
use std::fs;
use std::io::Write;
use std::process::{Command, Output, Stdio};

use second::book::Refusal;
use second::cents::{settle_book, Settled};
use second::chance::Chance;
use second::make::{make, CLASSES};
use second::members::Member;
use second::quantities::*;
use second::rules::earlier_first;
use second::sheet::{judge, Side, Verdict, SHEET_LIMIT};
use second::sheet_script::{earlier_factors, kinds, line_of, own_factors, sheet, turns, write_sheets};
use second::sheet_text::*;
use second::sheet_trials::{known_trials, odd_sheet, plain_sheet, sheet_of_a_book, NO_NUMBERS};
use second::worked::listing_book;
use second::write::to_bytes;
use Side::{Negative, Positive};
use Verdict::{Possible, WrongMember, WrongSide};

const LIMIT: i128 = SHARE_WEIGHT_LIMIT;

fn verdict(performances: &[i128], factors: &[i128]) -> Verdict {
    judge(performances, factors).expect("no refusal")
}

fn turned(numbers: &[i128]) -> Vec<i128> {
    numbers.iter().map(|number| -number).collect()
}

#[test]
fn thirds_have_three_placings() {
    let (low, high) = (333_333_333, 333_333_334);
    for factors in [[high, low, low], [low, high, low], [low, low, high]] {
        assert_eq!(verdict(&[1, 1, 1], &factors), Possible);
        assert_eq!(verdict(&[-1, -1, -1], &turned(&factors)), Possible);
        assert_eq!(verdict(&[1, 1, 1], &turned(&factors)), WrongMember(1));
    }
    assert_eq!(verdict(&[1, 1, 1], &[low; 3]), WrongSide(Positive), "none placed");
    assert_eq!(verdict(&[1, 1, 1], &[high, high, low]), WrongSide(Positive), "two placed");
    assert_eq!(verdict(&[1, 1, 1], &[high; 3]), WrongSide(Positive));
    assert_eq!(verdict(&[-1, -1, -1], &[-low; 3]), WrongSide(Negative), "none placed");
    assert_eq!(verdict(&[-1, -1, -1], &[-high, -low, -high]), WrongSide(Negative), "two placed");
    assert_eq!(verdict(&[1, 1, 1], &[low, low, low + 2]), WrongMember(3));
    assert_eq!(verdict(&[1, 1, 1], &[low, low - 1, high + 1]), WrongMember(2));
}

#[test]
fn the_positive_side_is_named_first_and_a_member_before_any_side() {
    let (low, high) = (333_333_333, 333_333_334);
    let both = [-1, -1, -1, 1, 1, 1];
    assert_eq!(verdict(&both, &[-low, -low, -low, low, low, low]), WrongSide(Positive));
    assert_eq!(verdict(&both, &[-low, -low, -low, low, high, low]), WrongSide(Negative));
    assert_eq!(verdict(&both, &[-low, -high, -low, low, low, low]), WrongSide(Positive));
    assert_eq!(verdict(&both, &[-low, -high, -low, low, high, low]), Possible);
    assert_eq!(verdict(&both, &[-low, -low, -low, low, low, low - 1]), WrongMember(6));
    assert_eq!(
        verdict(&[1, 1, 1, 0], &[low, low, low, 1]),
        WrongMember(4),
        "a wrong member after an off side"
    );
    assert_eq!(verdict(&both, &[-low, 0, -low, low, low, 0]), WrongMember(2), "the first of two");
}

/// Remainders of a half each: the left-over may go to either, as the two rules of the share have it.
#[test]
fn either_tie_rule() {
    let performances = [4, 12, 7_999_999_984];
    assert_eq!(own_factors(&performances), [0, 2, 999_999_998]);
    assert_eq!(earlier_factors(&performances), [1, 1, 999_999_998]);
    assert_eq!(verdict(&performances, &[0, 2, 999_999_998]), Possible);
    assert_eq!(verdict(&performances, &[1, 1, 999_999_998]), Possible);
    assert_eq!(verdict(&performances, &[1, 2, 999_999_998]), WrongSide(Positive));
    assert_eq!(verdict(&performances, &[0, 1, 999_999_998]), WrongSide(Positive));
    assert_eq!(verdict(&performances, &[0, 1, 999_999_999]), WrongMember(3), "an exact share has one factor");
    assert_eq!(verdict(&performances, &[0, 3, 999_999_997]), WrongMember(2));
    assert_eq!(verdict(&turned(&performances), &[0, -2, -999_999_998]), Possible);
    assert_eq!(verdict(&turned(&performances), &[-1, -1, -999_999_998]), Possible);
    assert_eq!(verdict(&turned(&performances), &[-1, -2, -999_999_998]), WrongSide(Negative));
}

/// Less than one billionth, and not one: W and a share beside a whole number of billionths.
#[test]
fn one_billionth_is_too_far() {
    assert_eq!(verdict(&[1, 999_999_999], &[1, 999_999_999]), Possible);
    assert_eq!(verdict(&[1, 999_999_999], &[0, 1_000_000_000]), WrongMember(1), "one away");
    assert_eq!(verdict(&[1, 999_999_999], &[2, 999_999_998]), WrongMember(1), "one away");
    // 1,000,000,000/1,000,000,001 of a billionth, and as much short of the next.
    assert_eq!(verdict(&[1, 1_000_000_000], &[0, 1_000_000_000]), Possible);
    assert_eq!(verdict(&[1, 1_000_000_000], &[1, 999_999_999]), Possible);
    assert_eq!(verdict(&[1, 1_000_000_000], &[2, 999_999_998]), WrongMember(1));
    assert_eq!(verdict(&[1, 1_000_000_000], &[-1, 1_000_000_001]), WrongMember(1));
    assert_eq!(verdict(&[1, 999_999_998], &[1, 999_999_999]), Possible);
    assert_eq!(verdict(&[1, 999_999_998], &[2, 999_999_998]), Possible);
    assert_eq!(verdict(&[1, 999_999_998], &[0, 1_000_000_000]), WrongMember(1));
}

#[test]
fn a_side_of_one_member() {
    for performance in [1, 2, 999_999_999, FACTOR_ONE, LIMIT - 1, LIMIT] {
        for sign in [1, -1] {
            for (factor, said) in [
                (FACTOR_ONE, Possible),
                (FACTOR_ONE - 1, WrongMember(1)),
                (FACTOR_ONE + 1, WrongMember(1)),
                (0, WrongMember(1)),
                (-FACTOR_ONE, WrongMember(1)),
                (i64::MAX.into(), WrongMember(1)),
                (i64::MIN.into(), WrongMember(1)),
            ] {
                let factor = if factor == i128::from(i64::MIN) { factor } else { sign * factor };
                assert_eq!(verdict(&[sign * performance], &[factor]), said, "{performance} {factor}");
            }
        }
    }
}

#[test]
fn members_of_no_side() {
    assert_eq!(verdict(&[], &[]), Possible);
    for length in [1, 2, 512, 513] {
        assert_eq!(verdict(&vec![0; length], &vec![0; length]), Possible);
        let mut factors = vec![0; length];
        for factor in [1, -1, i64::MAX.into(), i64::MIN.into()] {
            factors[length - 1] = factor;
            assert_eq!(verdict(&vec![0; length], &factors), WrongMember(length));
        }
    }
    assert_eq!(verdict(&[0], &[1]), WrongMember(1));
    assert_eq!(verdict(&[0, 5, 0, -7, 0], &[0, FACTOR_ONE, 0, -FACTOR_ONE, 0]), Possible);
    assert_eq!(verdict(&[0, 5, 0, -7, 0], &[0, FACTOR_ONE, 1, -FACTOR_ONE, 0]), WrongMember(3));
    assert_eq!(verdict(&[0, 5, 0, -7, 0], &[0, FACTOR_ONE, -1, -FACTOR_ONE, 1]), WrongMember(3));
}

#[test]
fn the_limit_of_w_on_each_side() {
    for sign in [1, -1] {
        let at = |performances: &[i128], factors: &[i128]| {
            let side = |numbers: &[i128]| numbers.iter().map(|number| sign * number).collect::<Vec<_>>();
            judge(&side(performances), &side(factors))
        };
        assert_eq!(at(&[LIMIT], &[FACTOR_ONE]), Ok(Possible));
        assert_eq!(at(&[LIMIT + 1], &[FACTOR_ONE]), Err(Refusal::of(5)));
        assert_eq!(at(&[LIMIT - 1, 1], &[FACTOR_ONE, 0]), Ok(Possible));
        assert_eq!(at(&[LIMIT - 1, 1], &[FACTOR_ONE - 1, 1]), Ok(Possible));
        assert_eq!(
            at(&[LIMIT - 1, 1], &[FACTOR_ONE - 1, 0]),
            Ok(WrongSide(if sign > 0 { Positive } else { Negative }))
        );
        assert_eq!(at(&[LIMIT, 1], &[FACTOR_ONE, 0]), Err(Refusal::of(5)));
        assert_eq!(at(&[LIMIT, -LIMIT], &[FACTOR_ONE, -FACTOR_ONE]), Ok(Possible), "each side by itself");
        assert_eq!(at(&[LIMIT, -LIMIT, -1], &[FACTOR_ONE, -FACTOR_ONE, 0]), Err(Refusal::of(5)));
        assert_eq!(at(&[LIMIT + 1], &[7]), Err(Refusal::of(5)), "before any member");
        // In 64 bits these totals would come round to 0 and to 1.
        assert_eq!(at(&[1 << 62; 4], &[FACTOR_ONE / 4; 4]), Err(Refusal::of(5)));
        assert_eq!(
            at(&[1 << 62, 1 << 62, 1, 1 << 62, 1 << 62], &[0, 0, FACTOR_ONE, 0, 0]),
            Err(Refusal::of(5))
        );
    }
    assert_eq!(judge(&[i64::MIN.into()], &[-FACTOR_ONE]), Err(Refusal::of(5)));
    assert_eq!(judge(&[i64::MAX.into()], &[FACTOR_ONE]), Err(Refusal::of(5)));
    assert_eq!(judge(&[i64::MIN.into(), i64::MAX.into()], &[0, 0]), Err(Refusal::of(5)));
}

#[test]
fn lengths_and_the_order_of_refusals() {
    let zeros = |length: usize| vec![0; length];
    assert_eq!(judge(&zeros(513), &zeros(513)), Ok(Possible));
    assert_eq!(judge(&zeros(514), &zeros(514)), Err(Refusal::of(5)));
    assert_eq!(judge(&zeros(513), &zeros(514)), Err(Refusal::of(5)), "5 before 12");
    assert_eq!(judge(&zeros(514), &zeros(513)), Err(Refusal::of(12)), "the sheet itself is not too long");
    assert_eq!(judge(&zeros(0), &zeros(514)), Err(Refusal::of(5)));
    assert_eq!(judge(&zeros(514), &zeros(0)), Err(Refusal::of(12)));
    assert_eq!(judge(&[1], &[]), Err(Refusal::of(12)));
    assert_eq!(judge(&[], &[0]), Err(Refusal::of(12)));
    assert_eq!(judge(&[LIMIT + 1], &[]), Err(Refusal::of(12)), "12 before the limit of W");
    assert_eq!(judge(&[LIMIT + 1], &[0, 0]), Err(Refusal::of(12)));
    assert_eq!(judge(&[0, 1], &[1, FACTOR_ONE, 0]), Err(Refusal::of(12)), "before any member");
    assert_eq!(SHEET_LIMIT, 513);
}

/// Of all sheets within one of the listing's factors, the listing's alone is possible.
#[test]
fn document_01s_listing() {
    let performances = [11_250_000_000, -3_375_000_000, -7_875_000_000];
    let factors = [1_000_000_000, -300_000_000, -700_000_000];
    for drawn in 0..27 {
        let moves = [drawn / 9 % 3 - 1, drawn / 3 % 3 - 1, drawn % 3 - 1];
        let moved = [0, 1, 2].map(|place| factors[place] + moves[place]);
        let said = match moves.iter().position(|&by| by != 0) {
            None => Possible,
            Some(place) => WrongMember(place + 1),
        };
        assert_eq!(verdict(&performances, &moved), said);
    }
}

/// Performances of many sorts, within the limit of W.
fn draw_list(chance: &mut Chance) -> Vec<i128> {
    let length = chance.pick(&[0, 1, 2, 3, 5, 8, 13, 40, 513]);
    let highest = chance.pick(&[1, 3, 12, 1_000, FACTOR_ONE, LIMIT / 513]);
    let sizes: Vec<i128> = (0..3).map(|_| chance.any_size(highest)).collect();
    let few = chance.one_in(3);
    (0..length)
        .map(|_| {
            let size = if few { chance.pick(&sizes) } else { chance.any_size(highest) };
            size * chance.pick(&[1, -1])
        })
        .collect()
}

#[test]
fn our_own_factors_are_possible_by_either_rule() {
    let mut chance = Chance::new(12);
    let mut apart = 0;
    for _ in 0..8_000 {
        let performances = draw_list(&mut chance);
        let (own, earlier) = (own_factors(&performances), earlier_factors(&performances));
        assert_eq!(verdict(&performances, &own), Possible, "{performances:?}");
        assert_eq!(verdict(&performances, &earlier), Possible, "{performances:?}");
        apart += u64::from(own != earlier);
    }
    assert!(apart > 30, "{apart}");
    // Every sheet of the script whose performances have an answer, where the rules often differ.
    let mut apart = 0;
    for nth in 0..8_000 {
        let performances = sheet(12, nth).1.performances;
        if performances.len() <= SHEET_LIMIT && judge(&performances, &vec![0; performances.len()]).is_ok() {
            let (own, earlier) = (own_factors(&performances), earlier_factors(&performances));
            assert_eq!(verdict(&performances, &own), Possible, "{performances:?}");
            assert_eq!(verdict(&performances, &earlier), Possible, "{performances:?}");
            apart += u64::from(own != earlier);
        }
    }
    assert!(apart > 1_000, "{apart}");
}

/// The rule said in another way: a factor is the whole part of its exact share, or one more where a remainder is
/// left; and as many members have one more as the whole parts leave over.
fn by_whole_parts(performances: &[i128], factors: &[i128]) -> Result<Verdict, Refusal> {
    if factors.len() > 513 {
        return Err(Refusal::of(5));
    }
    if performances.len() != factors.len() {
        return Err(Refusal::of(12));
    }
    let total_of = |sign: i128| performances.iter().map(|&p| (sign * p).max(0)).sum::<i128>();
    let totals = BTreeMap::from([(1, total_of(1)), (-1, total_of(-1))]);
    if totals.values().any(|&total| total > 6_010_000_000_000_000_000) {
        return Err(Refusal::of(5));
    }
    let mut left_over = BTreeMap::from([(1, 1_000_000_000), (-1, 1_000_000_000)]);
    let mut wrong = None;
    for (place, (&performance, &factor)) in performances.iter().zip(factors).enumerate() {
        let sign = performance.signum();
        let right = if sign == 0 {
            factor == 0
        } else {
            let whole = 1_000_000_000 * performance.abs() / totals[&sign];
            let remainder = 1_000_000_000 * performance.abs() % totals[&sign];
            let more = sign * factor - whole;
            *left_over.get_mut(&sign).unwrap() -= whole + more.clamp(0, 1);
            more == 0 || more == 1 && remainder > 0
        };
        if !right && wrong.is_none() {
            wrong = Some(place + 1);
        }
    }
    Ok(match wrong {
        Some(member) => WrongMember(member),
        None if totals[&1] != 0 && left_over[&1] != 0 => WrongSide(Positive),
        None if totals[&-1] != 0 && left_over[&-1] != 0 => WrongSide(Negative),
        None => Possible,
    })
}

#[test]
fn the_script_by_whole_parts_and_remainders() {
    for nth in 0..40_000 {
        let (kind, sheet) = sheet(2_026, nth);
        let said = by_whole_parts(&sheet.performances, &sheet.factors);
        assert_eq!(judge(&sheet.performances, &sheet.factors), said, "{nth} {kind}");
    }
}

fn choose(from: i128, some: i128) -> i128 {
    (0..some).fold(1, |product, step| product * (from - step) / (step + 1))
}

/// Every sheet of few members within two of the whole parts: those that are possible are as many as there are ways to
/// place the left-overs.
#[test]
fn every_sheet_of_few_members() {
    for drawn in 0..6_i128.pow(4) {
        let performances: Vec<i128> =
            (0..4).map(|place| [0, 1, 2, 3, -1, -2][(drawn / 6_i128.pow(place) % 6) as usize]).collect();
        let mut ways = 1;
        let mut whole = [0; 4];
        for sign in [1, -1] {
            let total: i128 = performances.iter().map(|p| (sign * p).max(0)).sum();
            let side: Vec<usize> = (0..4).filter(|&place| sign * performances[place] > 0).collect();
            side.iter().for_each(|&place| whole[place] = FACTOR_ONE * performances[place] / total);
            let waiting = side.iter().filter(|&&place| FACTOR_ONE * performances[place] % total != 0).count();
            let placed: i128 = side.iter().map(|&place| sign * whole[place]).sum();
            ways *= if total == 0 { 1 } else { choose(waiting as i128, FACTOR_ONE - placed) };
        }
        let mut possible = 0;
        for moves in 0..5_i128.pow(4) {
            let factors: Vec<i128> =
                (0..4).map(|place| whole[place as usize] + moves / 5_i128.pow(place) % 5 - 2).collect();
            possible += i128::from(verdict(&performances, &factors) == Possible);
        }
        assert_eq!(possible, ways, "{performances:?}");
    }
}

#[test]
fn what_a_whole_number_is() {
    for (word, number) in [
        ("0", 0),
        ("-0", 0),
        ("000", 0),
        ("-000", 0),
        ("7", 7),
        ("-7", -7),
        ("007", 7),
        ("-007", -7),
        ("9223372036854775807", i64::MAX.into()),
        ("-9223372036854775808", i64::MIN.into()),
        ("00000000000000000000000000000000000000000000000009223372036854775807", i64::MAX.into()),
    ] {
        assert_eq!(whole_number(word.as_bytes()), Some(number), "{word}");
    }
    for word in NO_NUMBERS {
        assert_eq!(whole_number(word.as_bytes()), None, "{word}");
    }
    assert_eq!([&b""[..], b"1\r", b"1\x0b", b"\x0c1", b"1 1", b"\t1"].map(whole_number), [None; 6]);
    assert_eq!(whole_number("9".repeat(4_000).as_bytes()), None);
    assert_eq!(numbers_of(b"\t 1  -2\t3 "), Some(vec![1, -2, 3]));
    assert_eq!(numbers_of(b" \t"), Some(vec![]));
    assert_eq!(numbers_of(b"1 2 x"), None);
}

#[test]
fn known_texts_and_books() {
    let mut names = BTreeSet::new();
    for (trial, printed) in known_trials() {
        assert_eq!(trial.printed(), printed, "{}", trial.name);
        assert!(names.insert(trial.name.clone()), "{} twice", trial.name);
    }
}

/// Odd writing changes no answer but for a word that is no number and a line that is missing.
#[test]
fn odd_writing_of_the_same_sheet() {
    let mut same = 0;
    for nth in 0..3_000 {
        let (plain, odd) = (plain_sheet(5, nth), odd_sheet(5, nth));
        let factors = odd.text.split(|&byte| byte == b'\n').nth(1).unwrap_or(&[]);
        let missing = numbers_of(factors) == Some(vec![]);
        let (plain, odd) = (plain.printed(), odd.printed());
        assert!(plain == odd || odd.starts_with("text ") || missing, "{nth}: {plain} {odd}");
        same += usize::from(plain == odd);
    }
    assert!((1_500..2_700).contains(&same), "{same}");
}

fn factors_in(settled: &Settled) -> Vec<i128> {
    settled.lines.iter().map(|line| line.factor).collect()
}

/// The factors of a book's listing are possible, and so are those by the rule before request R-9.
#[test]
fn the_factors_of_every_listing() {
    let mut apart = 0;
    for seed in 0..320 {
        let (class, _) = CLASSES[seed as usize % CLASSES.len()];
        let roster = [0, 1, 2, 5, 7, 13, 76, 512][seed as usize / CLASSES.len() % 8];
        let book = make(seed, class, Some(roster)).expect("a class of the list");
        let bytes = to_bytes(&book);
        for settled in settle_book(&book).expect("a made book").iter().take(4) {
            let own = factors_in(settled);
            let earlier = factors_in(&earlier_first(settled));
            apart += usize::from(own != earlier);
            for factors in [own, earlier] {
                let printed = of_book(&bytes, settled.number, line_of(&factors).as_bytes());
                assert_eq!(printed, "possible\n", "{seed} {class} {roster} {}", settled.number);
            }
        }
    }
    assert!(apart > 20, "{apart}");
}

/// The performances that factors are made of: payment defaults where they stand in.
#[test]
fn payment_defaults_stand_in() {
    let mut book = listing_book();
    book.units[1].good[74] = false;
    book.units[1].readings[74] = 0;
    book.units[1].defaults = [-6_000_000_000, -1, -1, 0, 0, 0];
    let members: Vec<Member> = members_of(&to_bytes(&book), 1).unwrap().unwrap();
    assert_eq!(performances_of(&members), [11_250_000_000, -6_000_000_000, -11_250_000_000]);
    let said = |factors: &str| of_book(&to_bytes(&book), 1, factors.as_bytes());
    assert_eq!(said("1000000000 -347826087 -652173913"), "possible\n");
    assert_eq!(said("1000000000 -347826086 -652173914"), "possible\n");
    assert_eq!(said("1000000000 -347826087 -652173914"), "wrong side negative\n");
    assert_eq!(said("1000000000 -300000000 -700000000"), "wrong member 2 unit 2\n");
}

/// The names of wrong members are those of the book's units, whose numbers are not their places.
#[test]
fn wrong_members_of_a_book_are_named() {
    let mut book = listing_book();
    (book.units[0].number, book.units[1].number) = (7, 65_535);
    let said = |factors: &str| of_book(&to_bytes(&book), 1, factors.as_bytes());
    assert_eq!(said("0 -300000000 -700000000"), "wrong member 1 unit 7\n");
    assert_eq!(said("1000000000 -1 0"), "wrong member 2 unit 65535\n");
    assert_eq!(said("1000000000 -300000000 700000000"), "wrong member 3 residual\n");
}

fn outcome_of(printed: &str) -> String {
    let words: Vec<&str> = printed.split_whitespace().collect();
    match words[..] {
        ["wrong", "member", _, ..] => format!("wrong member {}", words.get(3).unwrap_or(&"")),
        ["no", "requirement", _] => "no requirement".to_string(),
        ["refused", number, _, _] => format!("refused {number}"),
        _ => printed.to_string(),
    }
}

/// At least a third is possible, and no answer is rare; every kind of sheet comes within the turns.
#[test]
fn the_script_has_every_answer() {
    let count = 5_100;
    let mut answers: BTreeMap<String, usize> = BTreeMap::new();
    for nth in 0..count {
        *answers.entry(outcome_of(&plain_sheet(1, nth).printed())).or_default() += 1;
    }
    let of = |answer: &str| answers[answer];
    assert!(of("possible\n") > count as usize / 3, "{answers:?}");
    for answer in
        ["wrong member ", "wrong side positive\n", "wrong side negative\n", "refused 5", "refused 12"]
    {
        assert!(of(answer) > count as usize / 20, "{answer}: {answers:?}");
    }
    assert_eq!(answers.len(), 6, "{answers:?}");
    let met: BTreeSet<&str> = (0..turns() as u64).map(|nth| sheet(1, nth).0).collect();
    assert_eq!(met, BTreeSet::from_iter(kinds()));
}

#[test]
fn the_script_has_every_length_and_every_edge() {
    let mut met = BTreeSet::new();
    let mut totals = BTreeSet::new();
    let (mut least, mut greatest) = ([0; 2], [0; 2]);
    for nth in 0..5_100 {
        let sheet = sheet(1, nth).1;
        met.insert(sheet.factors.len());
        totals.insert(sheet.performances.iter().map(|&performance| performance.max(0)).sum::<i128>());
        totals.insert(sheet.performances.iter().map(|&performance| performance.min(0)).sum::<i128>());
        for (place, list) in [&sheet.performances, &sheet.factors].into_iter().enumerate() {
            assert!(list.iter().all(|&number| i64::try_from(number).is_ok()));
            least[place] += usize::from(list.contains(&i64::MIN.into()));
            greatest[place] += usize::from(list.contains(&i64::MAX.into()));
        }
    }
    for length in [0, 1, 2, 5, 7, 13, 76, 477, 509, 511, 512, 513, 514] {
        assert!(met.contains(&length), "{length}");
    }
    for total in [1, LIMIT, LIMIT + 1] {
        assert!(totals.contains(&total) && totals.contains(&-total), "{total}");
    }
    assert!(least.into_iter().chain(greatest).all(|count| count >= 10), "{least:?} {greatest:?}");
}

#[test]
fn books_reach_every_answer() {
    let mut answers: BTreeMap<String, usize> = BTreeMap::new();
    for nth in 0..2_800 {
        *answers.entry(outcome_of(&sheet_of_a_book(3, nth).printed())).or_default() += 1;
    }
    for answer in [
        "possible\n",
        "wrong member unit",
        "wrong member residual",
        "wrong side positive\n",
        "wrong side negative\n",
        "no requirement",
        "text 1\n",
        "refused 1",
        "refused 4",
        "refused 5",
        "refused 71",
        "refused 72",
        "refused 73",
        "refused 74",
        "refused 81",
        "refused 82",
        "refused 83",
        "refused 84",
        "refused 9",
        "refused 16",
        "refused 10",
        "refused 12",
    ] {
        assert!(answers.get(answer).is_some_and(|&count| count >= 10), "{answer}: {answers:?}");
    }
}

fn run(program: &str, words: &[&str], input: &[u8]) -> Output {
    let mut child = Command::new(program)
        .args(words)
        .stdin(Stdio::piped())
        .stdout(Stdio::piped())
        .stderr(Stdio::piped())
        .spawn()
        .expect("a program");
    // A program that fails at its arguments need not read.
    let _ = child.stdin.take().expect("a pipe").write_all(input);
    child.wait_with_output().expect("an end")
}

#[test]
fn the_program_in_both_forms() {
    let sheet = env!("CARGO_BIN_EXE_sheet");
    let path = std::env::temp_dir().join(format!("sheet-{}.book", std::process::id()));
    fs::write(&path, to_bytes(&listing_book())).expect("room");
    let book = path.to_str().expect("a path in letters");
    assert_eq!(run(sheet, &[], b"1 1\n500000000 500000000\n").stdout, b"possible\n");
    assert_eq!(run(sheet, &[], b"").stdout, b"possible\n");
    let said = |number: &str, line: &str| run(sheet, &[book, number], line.as_bytes()).stdout;
    assert_eq!(said("1", "1000000000 -300000000 -700000000\n"), b"possible\n");
    assert_eq!(said("1", "1000000000 -300000000 -700000002"), b"wrong member 3 residual\n");
    assert_eq!(said("9", ""), b"no requirement 9\n");
    for words in [&[book][..], &[book, "x"], &[book, "1", "1"], &["no/such/book", "1"]] {
        let failed = run(sheet, words, b"");
        assert!(
            !failed.status.success() && failed.stdout.is_empty() && !failed.stderr.is_empty(),
            "{words:?}"
        );
    }
    fs::remove_file(&path).expect("the book");
}

/// `sheets model` says of each pair of lines what `sheet` prints of it.
#[test]
fn the_model_of_a_script() {
    let mut script = Vec::new();
    write_sheets(300, 9, &mut script).expect("room");
    let by_pairs = run(env!("CARGO_BIN_EXE_sheets"), &["script", "300", "9"], b"");
    assert_eq!(by_pairs.stdout, script);
    let answers: String = (0..300).map(|nth| plain_sheet(9, nth).printed()).collect();
    let path = std::env::temp_dir().join(format!("sheets-{}.script", std::process::id()));
    fs::write(&path, &script).expect("room");
    let model = Command::new(env!("CARGO_BIN_EXE_sheets"))
        .arg("model")
        .stdin(fs::File::open(&path).expect("the script"))
        .output()
        .expect("a program");
    fs::remove_file(&path).expect("the script");
    assert_eq!(String::from_utf8(model.stdout).expect("words"), answers);
}
