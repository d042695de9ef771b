//! The share at its limits, and against its own definition on drawn weights; its left-overs are always fewer
//! than the members with weight, so that there is no refusal for more of them.

use second::book::Refusal;
use second::chance::Chance;
use second::lines;
use second::quantities::*;
use second::share::{share, share_earlier_first};

#[test]
fn total_and_weight_limits() {
    let most = SHARE_WEIGHT_LIMIT;
    assert!(share(SHARE_TOTAL_LIMIT, &[1]).is_ok());
    assert_eq!(share(SHARE_TOTAL_LIMIT + 1, &[1]), Err(Refusal::of(5)));
    assert_eq!(share(SHARE_TOTAL_LIMIT + 1, &[0]), Err(Refusal::of(5)), "also without weight");
    assert!(share(1, &[most]).is_ok());
    assert!(share(1, &[most - 1, 1]).is_ok());
    assert_eq!(share(1, &[most, 1]), Err(Refusal::of(5)));
    assert_eq!(share(0, &[most + 1]), Err(Refusal::of(5)));
}

/// T·weight needs more than 64 bits: these figures were worked out by hand.
#[test]
fn large_products() {
    let most = SHARE_WEIGHT_LIMIT;
    assert_eq!(share(SHARE_TOTAL_LIMIT, &[most / 2, most / 2]).unwrap().amounts, [500_000_000_000; 2]);
    assert_eq!(share(SHARE_TOTAL_LIMIT, &[most - 1, 1]).unwrap().amounts, [1_000_000_000_000, 0]);
    assert_eq!(share(3, &[most / 2, most / 2]).unwrap().amounts, [2, 1]);
    assert_eq!(share(0, &[5, 7]).unwrap().amounts, [0, 0]);
}

#[test]
fn a_member_without_weight_gets_nothing() {
    for total in 0..50 {
        let shared = share(total, &[0, 3, 0, 3, 3, 0]).unwrap();
        assert_eq!([shared.amounts[0], shared.amounts[2], shared.amounts[5]], [0; 3]);
        assert_eq!(shared.amounts.iter().sum::<i128>(), total);
    }
}

/// What each member gets by the rule, and what it got by the one before request R-9.
fn by_both_rules(total: i128, weights: &[i128]) -> [Vec<i128>; 2] {
    [share(total, weights), share_earlier_first(total, weights)].map(|shared| shared.unwrap().amounts)
}

/// Where equal remainders have different weights, the larger weight comes first; worked out by hand.
#[test]
fn equal_remainders_go_to_the_larger_weight() {
    assert_eq!(by_both_rules(2, &[1, 3]), [[0, 2], [1, 1]], "halves");
    assert_eq!(by_both_rules(2, &[3, 1]), [[2, 0], [2, 0]], "the larger is the earlier too");
    // Remainders 4 of 12 each: one left-over, three weights.
    assert_eq!(by_both_rules(4, &[1, 4, 7]), [[0, 1, 3], [1, 1, 2]]);
    assert_eq!(by_both_rules(4, &[4, 7, 1]), [[1, 3, 0], [2, 2, 0]]);
    // Remainders 8 of 12 each: two left-overs, three weights.
    assert_eq!(by_both_rules(8, &[1, 4, 7]), [[0, 3, 5], [1, 3, 4]]);
    assert_eq!(by_both_rules(8, &[4, 7, 1]), [[3, 5, 0], [3, 5, 0]]);
    assert_eq!(by_both_rules(8, &[7, 1, 4]), [[5, 0, 3], [5, 1, 2]]);
    // W at its limit, T at and near its own: quarters and three quarters of a T that leaves 2 divided by 4.
    let quarter = SHARE_WEIGHT_LIMIT / 4;
    assert_eq!(by_both_rules(2, &[quarter, 3 * quarter]), [[0, 2], [1, 1]]);
    assert_eq!(
        by_both_rules(SHARE_TOTAL_LIMIT - 2, &[quarter, 3 * quarter]),
        [[249_999_999_999, 749_999_999_999], [250_000_000_000, 749_999_999_998]]
    );
    // Both at their limits, in parts of W/8,192: T·weight is an odd number of halves of W.
    let part = SHARE_WEIGHT_LIMIT / 8_192;
    assert_eq!(
        by_both_rules(SHARE_TOTAL_LIMIT, &[part, 3 * part, 5 * part, 8_183 * part]),
        [
            [122_070_312, 366_210_937, 610_351_563, 998_901_367_188],
            [122_070_313, 366_210_938, 610_351_562, 998_901_367_187]
        ]
    );
}

#[test]
fn equal_remainders_of_equal_weights_go_to_the_earlier_member() {
    for (total, weights, amounts) in [
        (10, [1, 1, 1].as_slice(), [4, 3, 3].as_slice()),
        (2, &[1, 1, 1], &[1, 1, 0]),
        (3, &[5, 5], &[2, 1]),
        (2, &[0, 7, 0, 7, 7], &[0, 1, 0, 1, 0]),
        (5, &[2, 2, 2, 2], &[2, 1, 1, 1]),
    ] {
        assert_eq!(by_both_rules(total, weights), [amounts, amounts], "{total} over {weights:?}");
    }
}

/// Both at once: the larger weights first, among them the earlier member.
#[test]
fn larger_weights_first_then_earlier_members() {
    // Halves all over: three left-overs go to 5 and to the earlier two of the three 3s.
    assert_eq!(by_both_rules(8, &[1, 3, 1, 3, 5, 3]), [[0, 2, 0, 2, 3, 1], [1, 2, 1, 1, 2, 1]]);
    assert_eq!(by_both_rules(4, &[1, 1, 3, 3]), [[0, 0, 2, 2], [1, 1, 1, 1]]);
    assert_eq!(by_both_rules(4, &[1, 3, 1, 3]), [[0, 2, 0, 2], [1, 2, 0, 1]]);
    assert_eq!(by_both_rules(6, &[1, 1, 3, 3, 1, 3]), [[0, 0, 2, 2, 0, 2], [1, 1, 2, 1, 0, 1]]);
}

/// The weight is asked only where remainders are equal.
#[test]
fn a_larger_remainder_comes_before_a_larger_weight() {
    assert_eq!(by_both_rules(1, &[1, 2])[0], [0, 1]);
    // 5 over 2, 7: remainders 1 and 8 of 9; 4 over them: 8 and 1.
    assert_eq!(by_both_rules(5, &[2, 7])[0], [1, 4]);
    assert_eq!(by_both_rules(4, &[2, 7])[0], [1, 3]);
    // Remainders 1, 1, 1, 2 of 3: the 20 comes first, then the largest of the others.
    assert_eq!(by_both_rules(120, &[4, 1, 295, 40, 20]), [[1, 0, 99, 13, 7], [2, 0, 98, 13, 7]]);
}

/// The definition, one left-over at a time: the largest remainder not yet served, of equal ones the largest
/// weight, and of equal weights the earliest.
fn by_definition(total: i128, weights: &[i128]) -> Vec<i128> {
    let sum: i128 = weights.iter().sum();
    let mut amounts: Vec<i128> = weights.iter().map(|weight| total * weight / sum).collect();
    let mut served = vec![false; weights.len()];
    while amounts.iter().sum::<i128>() < total {
        let mut best: Option<usize> = None;
        let remainder = |member: usize| total * weights[member] % sum;
        let comes_before = |one: usize, other: usize| {
            remainder(one) > remainder(other)
                || remainder(one) == remainder(other) && weights[one] > weights[other]
        };
        for member in (0..weights.len()).filter(|&member| !served[member]) {
            if best.is_none_or(|best| comes_before(member, best)) {
                best = Some(member);
            }
        }
        let best = best.expect("fewer left-overs than members");
        served[best] = true;
        amounts[best] += 1;
    }
    amounts
}

#[test]
fn drawn_shares_follow_the_definition() {
    let mut chance = Chance::new(13);
    for _ in 0..20_000 {
        let members = chance.between(1, 13) as usize;
        let highest = chance.pick(&[1, 3, 1_000, SHARE_WEIGHT_LIMIT / 13]);
        let mut weights: Vec<i128> = (0..members).map(|_| chance.any_size(highest)).collect();
        if chance.one_in(3) {
            let first = weights[0];
            weights.iter_mut().for_each(|weight| *weight = (*weight).min(first));
        }
        let total = chance.any_size(SHARE_TOTAL_LIMIT);
        let shared = share(total, &weights).unwrap();
        if weights.iter().sum::<i128>() == 0 {
            assert_eq!((shared.amounts, shared.unplaced), (vec![0; members], total));
        } else {
            assert_eq!((shared.amounts, shared.unplaced), (by_definition(total, &weights), 0));
        }
    }
}

/// The lines too, many of which have equal remainders of different weights.
#[test]
fn lines_follow_the_definition() {
    for nth in 0..5_400 {
        let line = lines::share(31, nth);
        let numbers: Vec<i128> = line.split(' ').map(|word| word.parse().unwrap()).collect();
        let (total, weights) = (numbers[0], &numbers[1..]);
        // The definition takes its time over hundreds of weights.
        let few = weights.len() <= 76 || nth % 18 == 13 && nth < 900;
        if let Some(shared) = share(total, weights).ok().filter(|_| few) {
            if weights.iter().sum::<i128>() > 0 {
                assert_eq!(shared.amounts, by_definition(total, weights), "{total} over {weights:?}");
            }
        }
    }
}

/// The left-overs of a share that has weight, after it was seen that they are fewer than the members with
/// weight, and why; no tie is broken to count them.
fn few_left_over(total: i128, weights: &[i128]) -> i128 {
    let count = |numbers: &[i128]| numbers.iter().filter(|&&number| number > 0).count() as i128;
    let sum: i128 = weights.iter().sum();
    let whole: i128 = weights.iter().map(|weight| total * weight / sum).sum();
    let remainders: Vec<i128> = weights.iter().map(|weight| total * weight % sum).collect();
    let left_over = total - whole;
    assert_eq!(remainders.iter().sum::<i128>(), left_over * sum, "{total} over {weights:?}");
    assert!((0..count(weights)).contains(&left_over), "{total} over {weights:?}");
    assert!(left_over == 0 || left_over < count(&remainders), "{total} over {weights:?}");
    let shared = share(total, weights).unwrap();
    assert_eq!((shared.amounts.iter().sum(), shared.unplaced), (total, 0), "{total} over {weights:?}");
    let idle = weights.iter().zip(&shared.amounts).filter(|(&weight, _)| weight == 0);
    assert!(idle.into_iter().all(|(_, &amount)| amount == 0), "{total} over {weights:?}");
    left_over
}

/// Totals at their limits and around a number of members.
fn totals_around(members: i128) -> [i128; 9] {
    let most = SHARE_TOTAL_LIMIT;
    [0, 1, members - 1, members, members + 1, 2 * members - 1, FACTOR_ONE, most - 1, most]
}

#[test]
fn few_left_over_in_every_small_share() {
    for members in 1..=5 {
        for drawn in 1..5_i128.pow(members) {
            let weights: Vec<i128> = (0..members).map(|place| drawn / 5_i128.pow(place) % 5).collect();
            for total in 0..=24 {
                few_left_over(total, &weights);
            }
        }
    }
}

/// Equal weights, where all is a tie: the most that can be left over, one fewer than the members, is reached.
#[test]
fn few_left_over_among_equals() {
    for members in [1, 2, 3, 7, 76, 477, 512, 513] {
        for weight in [1, 2, 999_983, SHARE_WEIGHT_LIMIT / members] {
            let weights = vec![weight; members as usize];
            for total in totals_around(members) {
                assert_eq!(few_left_over(total, &weights), total % members, "{members} of {weight}");
            }
        }
    }
}

#[test]
fn nothing_left_over_for_one_alone() {
    for weight in [1, 2, 999_983, SHARE_WEIGHT_LIMIT - 1, SHARE_WEIGHT_LIMIT] {
        for weights in [vec![weight], vec![weight, 0], vec![0, weight], vec![0, 0, weight, 0]] {
            for total in totals_around(1) {
                assert_eq!(few_left_over(total, &weights), 0, "{weights:?}");
            }
        }
    }
}

/// W at its limit: one large weight and small ones beside it, and weights that are nearly alike.
#[test]
fn few_left_over_at_the_weight_limit() {
    for members in [2, 3, 7, 76, 477, 512, 513] {
        let rest = members - 1;
        for small in [0, 1, 2, 999_983, SHARE_WEIGHT_LIMIT / members - 1, SHARE_WEIGHT_LIMIT / members] {
            let mut weights = vec![small; members as usize];
            weights[rest as usize / 2] = SHARE_WEIGHT_LIMIT - rest * small;
            for total in totals_around(members) {
                few_left_over(total, &weights);
            }
        }
    }
}

/// The lines that the library's share is held to: W at its limit, ties, one weight alone, weights of all sizes.
#[test]
fn few_left_over_in_drawn_shares() {
    let (mut none, mut some, mut most) = (0, 0, 0);
    for nth in 0..20_000 {
        let line = lines::share(2_026, nth);
        let numbers: Vec<i128> = line.split(' ').map(|word| word.parse().unwrap()).collect();
        let (total, weights) = (numbers[0], &numbers[1..]);
        let sum: i128 = weights.iter().sum();
        if total > SHARE_TOTAL_LIMIT || sum > SHARE_WEIGHT_LIMIT || sum == 0 {
            continue;
        }
        let with_weight = weights.iter().filter(|&&weight| weight > 0).count() as i128;
        match few_left_over(total, weights) {
            0 => none += 1,
            left_over if left_over == with_weight - 1 => most += 1,
            _ => some += 1,
        }
    }
    assert!(none >= 500 && some >= 2_000 && most >= 500, "{none} {some} {most}");
}
