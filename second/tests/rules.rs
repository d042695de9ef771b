//! Where the rule of the share and the one before request R-9 differ: in made books and in lines, often enough and in
//! every share.

use std::collections::BTreeSet;

use second::cents::{settle_book, Settled};
use second::invariants::check;
use second::lines;
use second::make::{make, CLASSES, ROSTERS, UNEQUAL};
use second::quantities::*;
use second::rules::{differ, earlier_first, shares_of, shares_that_differ, SHARES};

fn made(seed: u64, class: &str, roster: usize) -> Vec<Settled> {
    settle_book(&make(seed, class, Some(roster)).unwrap()).unwrap()
}

/// In nearly every book of every roster but 0; from five units on in every share and in both directions.
#[test]
fn the_rules_differ_in_books_of_unequal_weights() {
    for roster in ROSTERS {
        let seeds = if roster > 100 { 20 } else { 60 };
        let (mut books, mut apart) = (0, 0);
        let mut seen = BTreeSet::new();
        for class in UNEQUAL {
            for seed in 0..seeds {
                let shares = shares_of(&made(seed, class, roster));
                books += 1;
                apart += usize::from(!shares.is_empty());
                seen.extend(shares);
            }
        }
        match roster {
            0 => assert_eq!(apart, 0, "a residual alone ties with nobody"),
            _ => assert!(20 * apart >= 19 * books, "{roster} units: {apart} of {books}"),
        }
        if roster >= 5 {
            assert_eq!(seen.len(), 2 * SHARES.len(), "{roster} units: {seen:?}");
        }
    }
}

fn sums(settled: &Settled) -> [i128; 6] {
    let lines = &settled.lines;
    [
        lines.iter().map(|line| line.factor.max(0)).sum(),
        lines.iter().map(|line| line.factor.min(0)).sum(),
        lines.iter().map(|line| line.payment.max(0)).sum(),
        lines.iter().map(|line| line.payment.min(0)).sum(),
        lines.iter().map(|line| line.used).sum(),
        lines.iter().map(|line| line.unused).sum(),
    ]
}

/// The rule before placed the same cents, none more than one away; where it differs, the invariants notice.
#[test]
fn the_rule_before_moves_single_cents() {
    for (class, _) in CLASSES {
        for seed in 0..30 {
            let book = make(seed, class, Some([1, 5, 13][seed as usize % 3])).unwrap();
            let settled = settle_book(&book).unwrap();
            let before: Vec<Settled> = settled.iter().map(earlier_first).collect();
            for (now, before) in settled.iter().zip(&before) {
                assert_eq!(now == before, shares_that_differ(now) == [false; 6], "{seed} {class}");
                assert_eq!(sums(now), sums(before), "{seed} {class}");
                for (now, before) in now.lines.iter().zip(&before.lines) {
                    let moved = [
                        now.factor - before.factor,
                        now.payment - before.payment,
                        now.used - before.used,
                        now.unused - before.unused,
                    ];
                    assert!(moved.iter().all(|cents| cents.abs() <= 1), "{seed} {class}");
                }
            }
            assert_eq!(check(&book, &before).is_ok(), settled == before, "{seed} {class}");
        }
    }
}

/// The figures of a line of `share`; None where it is refused.
fn figures(line: &str) -> Option<(i128, Vec<i128>)> {
    let mut numbers = line.split(' ').map(|word| word.parse().unwrap());
    let (total, weights): (i128, Vec<i128>) = (numbers.next().unwrap(), numbers.collect());
    let taken = total <= SHARE_TOTAL_LIMIT && weights.iter().sum::<i128>() <= SHARE_WEIGHT_LIMIT;
    taken.then_some((total, weights))
}

/// A good part of the lines tells the rules apart; 513 weights of one, two and three sizes are among the lines,
/// those of two and three sizes with a tie of all 513.
#[test]
fn the_rules_differ_in_lines_of_shares() {
    let count = 3_600;
    let mut apart = 0;
    let mut sizes_of_513 = [0; 4];
    for nth in 0..count {
        let Some((total, weights)) = figures(&lines::share(9, nth)) else { continue };
        let tells = differ(total, &weights);
        apart += usize::from(tells);
        let sum: i128 = weights.iter().sum();
        let sizes = weights.iter().collect::<BTreeSet<_>>().len();
        if weights.len() == 513 && (1..=3).contains(&sizes) && sum > 0 {
            let remainders: BTreeSet<i128> = weights.iter().map(|weight| total * weight % sum).collect();
            let one_tie = remainders.len() == 1 && !remainders.contains(&0);
            sizes_of_513[sizes] += usize::from(one_tie && (tells || sizes == 1));
        }
    }
    assert!(10 * apart >= 3 * count, "{apart} of {count}");
    assert!(sizes_of_513[1..].iter().all(|&lines| lines >= 10), "{sizes_of_513:?}");
}
