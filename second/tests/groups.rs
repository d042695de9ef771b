//! Groups of units (request R-5): worked by hand from document 01's listing book, both sides of refusal 16, what a group is equal to, and
//! that made books tell every wrong reading of the rule apart.

mod common;

use std::collections::{BTreeMap, BTreeSet};

use common::{at, printed, refused};
use second::book::{read_book, Book, Requirement, Unit};
use second::cents::{settle_book, settle_roster, settle_with_rcr, Settled};
use second::chance::Chance;
use second::deviation::{unit_deviations, unit_is_good};
use second::groups::cut;
use second::invariants::check;
use second::make::{make, ungrouped, GROUPED};
use second::members::Name;
use second::performance::{roster_views, Reason, RegionView, Standing};
use second::quantities::*;
use second::rcr::rcr;
use second::roster::{by_member, grouped, RosterMember};
use second::rules::without_groups;
use second::worked::listing_book;
use second::write::{base_unit, to_bytes};

fn only(book: &Book) -> Settled {
    settle_book(book).unwrap().remove(0)
}

/// A unit so many cMW above its start throughout, which is 75 times as much of deviation and 112,500,000 times of performance.
fn above(number: i128, group: i128, cmw: i128) -> Unit {
    Unit { group, readings: [cmw; POINTS], ..base_unit(number, 0) }
}

fn load(unit: Unit) -> Unit {
    Unit { load: true, ..unit }
}

fn with_units(units: Vec<Unit>) -> Book {
    Book { units, ..listing_book() }
}

fn spoil(book: &mut Book, place: usize) {
    book.units[place].good[74] = false;
    book.units[place].readings[74] = 0;
}

fn performances(settled: &Settled) -> Vec<i128> {
    settled.lines.iter().map(|line| line.member.payment_performance).collect()
}

fn names(settled: &Settled) -> Vec<Name> {
    settled.lines.iter().map(|line| line.member.name).collect()
}

fn standings(settled: &Settled) -> Vec<Standing> {
    settled.lines.iter().map(|line| line.member.standing).collect()
}

const WORTH: i128 = 112_500_000;
const BAD: Standing = Standing::Default(Reason::BadUnit);

/// Unit 1 is 7,500 above at every point, unit 2 a load and 2,250 below: together 5,250 above. RCR is 7,500 without the group.
#[test]
fn the_listing_book_as_a_group() {
    let mut book = listing_book();
    (book.units[0].group, book.units[1].group) = (9, 9);
    book.units[1].defaults = [0; 6];
    let listing = "\
interval 7
requirement 1 raise 5250 70 333 667 0 0
unit 1 live 7875000000 1000000000 70 0 -334
residual live -7875000000 -1000000000 -70 -333 -333
";
    assert_eq!(printed(&book), listing);
    assert_eq!(only(&without_groups(&book)).rcr, 7_500);
}

#[test]
fn a_generator_and_a_load_that_cancel() {
    let mut book = listing_book();
    (book.units[0].group, book.units[1].group) = (1, 1);
    book.units[1].defaults = [0; 6];
    book.units[1].readings = [5_100; POINTS];
    let listing = "\
interval 7
requirement 1 raise 0 0 333 667 333 0
unit 1 live 0 0 0 0 -334
residual live 0 0 0 0 -333
";
    assert_eq!(printed(&book), listing);
    assert_eq!(only(&without_groups(&book)).rcr, 7_500);
    // One cMW less of load at one point.
    book.units[1].readings[40] = 5_099;
    assert_eq!((only(&book).rcr, performances(&only(&book))), (75, vec![1_500_000, -1_500_000]));
}

/// A group of three, 5 - 3 + 2 above, and an ungrouped unit 10 above. One bad unit takes the whole group out of residual and RCR.
#[test]
fn one_bad_unit_first_in_the_middle_and_last() {
    let mut book = with_units(vec![above(1, 4, 5), load(above(2, 4, 3)), above(3, 4, 2), above(7, 0, 10)]);
    book.units[0].defaults = [-40, -50, -60, 0, 0, 0];
    book.settings.bad_unit_percent = 50;
    let settled = only(&book);
    assert_eq!(performances(&settled), [4 * WORTH, 10 * WORTH, -14 * WORTH]);
    assert_eq!((settled.rcr, names(&settled)), (14 * 75, vec![Name::Unit(1), Name::Unit(7), Name::Residual]));
    for place in [0, 1, 2] {
        let mut book = book.clone();
        spoil(&mut book, place);
        let settled = only(&book);
        assert_eq!(standings(&settled), [BAD, Standing::Live, Standing::Live], "{place}");
        assert_eq!(performances(&settled), [-40, 10 * WORTH, -10 * WORTH], "{place}");
        assert_eq!(settled.rcr, 750, "{place}");
        // One bad of two members, though one of four units.
        book.settings.bad_unit_percent = 49;
        assert_eq!(only(&book).rcr, 0, "{place}");
        assert_eq!(only(&without_groups(&book)).rcr > 0, true, "{place}");
        // Several bad units of a group are one bad member.
        book.settings.bad_unit_percent = 50;
        (0..3).for_each(|place| spoil(&mut book, place));
        assert_eq!(only(&book).rcr, 750, "{place}");
    }
}

#[test]
fn groups_side_by_side() {
    let of = |groups: [i128; 5]| {
        let units = (0..5).map(|place| above(place + 1, groups[place as usize], 1 << place)).collect();
        with_units(units)
    };
    // Units 1 and 2, and units 3 to 5: with a number unused between, without, falling, and the first and last numbers.
    let one = printed(&of([3, 3, 5, 5, 5]));
    for groups in [[3, 3, 4, 4, 4], [5, 5, 3, 3, 3], [1, 1, 65_535, 65_535, 65_535], [256, 256, 1, 1, 1]] {
        assert_eq!(printed(&of(groups)), one, "{groups:?}");
    }
    let members = |groups: [i128; 5]| performances(&only(&of(groups)));
    let worth = |cmw: &[i128]| -> Vec<i128> { cmw.iter().map(|cmw| cmw * WORTH).collect() };
    assert_eq!(members([3, 3, 5, 5, 5]), worth(&[3, 28, -31]));
    // Next to ungrouped units: before, behind, between; two ungrouped ones are no group.
    assert_eq!(members([0, 3, 3, 3, 3]), worth(&[1, 30, -31]));
    assert_eq!(members([3, 3, 3, 3, 0]), worth(&[15, 16, -31]));
    assert_eq!(members([3, 3, 0, 5, 5]), worth(&[3, 4, 24, -31]));
    assert_eq!(members([0, 0, 0, 5, 5]), worth(&[1, 2, 4, 24, -31]));
    assert_eq!(members([0, 3, 0, 5, 0]), worth(&[1, 2, 4, 8, 16, -31]));
    assert_eq!(members([7, 7, 7, 7, 7]), worth(&[31, -31]));
}

/// The last units of the roster are a group, of every size up to the whole roster.
#[test]
fn a_group_at_the_end_and_of_the_whole_roster() {
    for roster in [1, 5, 7, 13, 76, 477, 509, 511, 512i128] {
        for size in [1, 2, 5, 13, 76, 477, 511, 512].into_iter().filter(|&size| size <= roster) {
            let first = roster - size + 1;
            let units =
                (1..=roster).map(|number| above(number, if number >= first { 8 } else { 0 }, 1)).collect();
            let settled = only(&with_units(units));
            let mut wanted = vec![WORTH; (roster - size) as usize];
            wanted.extend([size * WORTH, -roster * WORTH]);
            assert_eq!(performances(&settled), wanted, "{roster} {size}");
            assert_eq!(settled.lines[(roster - size) as usize].member.name, Name::Unit(first));
            assert_eq!(settled.rcr, roster * 75, "{roster} {size}");
        }
    }
}

/// 512 units as far away as can be are one member with a performance past 2^61.
#[test]
fn the_heaviest_group() {
    let mut book = listing_book();
    book.frequencies[0].frequencies = [45_000_000; POINTS];
    let heavy = |number: i128| Unit { start: -100_000, end: -100_000, ..above(number, 1, 100_000) };
    book.units = (1..=512).map(heavy).collect();
    let most = 2_880_000_000_000_000_000;
    assert_eq!(performances(&only(&book)), [most, -most]);
    assert_eq!(only(&book).rcr, 512 * 15_000_000);
    assert!(read_book(&to_bytes(&book)).is_ok());
}

#[test]
fn the_percent_rule_counts_members() {
    let groups = [1, 1, 2, 0, 3, 3, 3, 0i128];
    let units = (0..8).map(|place| above(place + 1, groups[place as usize], 1)).collect();
    let mut book = with_units(units);
    assert_eq!(only(&book).lines.len(), 6, "five members and the residual");
    spoil(&mut book, 4);
    spoil(&mut book, 6);
    assert_eq!(only(&book).rcr, 5 * 75, "one bad of five keeps RCR");
    spoil(&mut book, 2);
    assert_eq!(only(&book).rcr, 0, "two bad of five make it 0");
    book.settings.bad_unit_percent = 39;
    assert_eq!(only(&book).rcr, 0);
    book.settings.bad_unit_percent = 40;
    assert_eq!(only(&book).rcr, 4 * 75);
}

/// A region whose members are all bad has a default residual, though single units of its groups are good.
#[test]
fn a_region_without_a_good_member() {
    let mut book = with_units(vec![above(1, 2, 5), above(2, 2, 7), above(3, 6, 1), above(4, 6, 1)]);
    book.frequencies[0].defaults = [-9, -8, -7, 0, 0, 0];
    spoil(&mut book, 1);
    assert_eq!(standings(&only(&book)), [BAD, Standing::Live, Standing::Live]);
    spoil(&mut book, 2);
    let none = Standing::Default(Reason::NoGoodUnit);
    assert_eq!(standings(&only(&book)), [BAD, BAD, none]);
    assert_eq!(performances(&only(&book)), [0, 0, -9]);
    assert_eq!(standings(&only(&without_groups(&book)))[4], Standing::Live);
}

/// Number, defaults and place of a group are its primary's.
#[test]
fn a_group_goes_by_its_primary() {
    let mut book = with_units(vec![above(3, 0, 1), above(11, 5, 2), above(12, 5, 3), above(40, 0, 4)]);
    book.units[1].defaults = [-1, -2, -300, -4, -5, -6];
    spoil(&mut book, 2);
    let settled = only(&book);
    let group = &settled.lines[1].member;
    assert_eq!((group.name, group.standing), (Name::Unit(11), BAD));
    assert_eq!((group.payment_performance, group.used_performance, group.unused_default), (-1, -2, -300));
    assert_eq!(names(&settled), [Name::Unit(3), Name::Unit(11), Name::Unit(40), Name::Residual]);
}

/// Groups in several regions, each in its own.
#[test]
fn groups_in_several_regions() {
    let mut book = with_units((1..=6).map(|number| above(number, (number + 1) / 2, number)).collect());
    book.frequencies[3].frequencies = [49_980_000; POINTS];
    for place in [2, 3] {
        book.units[place].region = 3;
    }
    assert_eq!(performances(&only(&book)), [3 * WORTH, 11 * WORTH, -14 * WORTH]);
    book.requirements[0].region_set = 0b01000;
    assert_eq!(performances(&only(&book)), [7 * WORTH, -7 * WORTH]);
    book.requirements[0].region_set = 0b01001;
    assert_eq!(performances(&only(&book)), [3 * WORTH, 7 * WORTH, 11 * WORTH, -21 * WORTH]);
}

/// Units 1 to 5 without defaults, in these groups.
fn in_groups(groups: [i128; 5]) -> Book {
    with_units((0..5).map(|place| above(place + 1, groups[place as usize], 1)).collect())
}

#[test]
fn a_group_that_returns_is_refused_at_its_record() {
    let refusal = |groups: [i128; 5]| refused(&to_bytes(&in_groups(groups)));
    for groups in [[1, 1, 1, 1, 1], [1, 1, 2, 2, 0], [0, 0, 2, 0, 0], [5, 4, 3, 2, 1], [0, 1, 1, 0, 2]] {
        assert_eq!(refusal(groups), None, "{groups:?}");
    }
    assert_eq!(refusal([1, 0, 1, 0, 0]), at(16, 3, 0), "an ungrouped unit between");
    assert_eq!(refusal([1, 2, 1, 0, 0]), at(16, 3, 0), "another group between");
    assert_eq!(refusal([0, 7, 7, 0, 7]), at(16, 5, 0));
    assert_eq!(refusal([65_535, 1, 1, 2, 65_535]), at(16, 5, 0));
    assert_eq!(refusal([1, 2, 2, 1, 2]), at(16, 4, 0), "the first of two");
    assert_eq!(refusal([256, 1, 0, 0, 1]), at(16, 5, 0));
    assert_eq!(refusal([256, 1, 0, 0, 0]), None, "another in its high byte alone");
    assert_eq!(refusal([257, 1, 257, 0, 0]), at(16, 3, 0));
}

#[test]
fn a_group_in_two_regions_is_refused_at_the_record_that_changes() {
    for place in 1..5 {
        for region in 0..REGIONS {
            let mut book = in_groups([3, 3, 3, 3, 3]);
            book.units[place..].iter_mut().for_each(|unit| unit.region = region);
            let expected = if region == 0 { None } else { at(16, place + 1, 0) };
            assert_eq!(refused(&to_bytes(&book)), expected, "{place} {region}");
        }
    }
    let mut book = in_groups([3, 3, 4, 4, 4]);
    book.units[2..].iter_mut().for_each(|unit| unit.region = 2);
    assert_eq!(refused(&to_bytes(&book)), None, "two groups, two regions");
    // The primary's region is the group's, whichever it is.
    let mut book = in_groups([3, 3, 3, 0, 0]);
    book.units[0].region = 4;
    assert_eq!(refused(&to_bytes(&book)), at(16, 2, 0));
}

#[test]
fn a_default_off_the_primary_is_refused() {
    for default in 0..6 {
        for (place, value) in [(1, -1), (2, -1), (3, UNIT_DEFAULT_LOWEST), (4, -1)] {
            let mut book = in_groups([0, 3, 3, 3, 3]);
            book.units[place].defaults[default] = value;
            let expected = if place == 1 { None } else { at(16, place + 1, 0) };
            assert_eq!(refused(&to_bytes(&book)), expected, "{place} {default}");
            book.units[place].group = 9;
            book.units.truncate(place + 1);
            assert_eq!(refused(&to_bytes(&book)), None, "the first of its group");
        }
    }
}

/// 16 is the last of a unit record's, and comes before everything that follows the record.
#[test]
fn sixteen_comes_after_nine() {
    type Fault = fn(&mut Book);
    let earlier: [(Fault, u8, usize); 5] = [
        (|book| book.units[2].start = 100_001, 81, 0),
        (|book| book.units[2].defaults[5] = 1, 82, 0),
        (|book| book.units[2].readings[74] = 100_001, 84, 75),
        (|book| book.units[2].good[8] = false, 84, 9),
        (|book| book.units[2].number = 2, 9, 0),
    ];
    let later: [Fault; 4] = [
        |book| book.units[3].region = 5,
        |book| book.units[3].number = 0,
        |book| book.requirements[0].region_set = 0,
        |book| book.units[4].defaults[0] = -1,
    ];
    let wrong: [Fault; 3] = [
        |book| book.units[2].defaults[0] = -1,
        |book| book.units[2].region = 1,
        |book| (book.units[1].group, book.units[3].group) = (0, 0),
    ];
    for (nth, sixteen) in wrong.into_iter().enumerate() {
        let mut book = in_groups([6, 6, 6, 6, 6]);
        sixteen(&mut book);
        assert_eq!(refused(&to_bytes(&book)), at(16, 3, 0), "{nth}");
        for fault in later {
            let mut both = book.clone();
            fault(&mut both);
            assert_eq!(refused(&to_bytes(&both)), at(16, 3, 0), "{nth}");
        }
        for (fault, number, t) in earlier {
            let mut both = book.clone();
            fault(&mut both);
            assert_eq!(refused(&to_bytes(&both)), at(number, 3, t), "{nth} {number}");
        }
        let mut bytes = to_bytes(&book);
        bytes[1_904 + 2 * 372 + 69] |= 0x80;
        assert_eq!(refused(&bytes), at(83, 3, 0), "{nth}");
        let bytes = to_bytes(&book);
        assert_eq!(
            refused(&bytes[..1_904 + 3 * 372]),
            at(16, 3, 0),
            "{nth}, its record is the last that is there"
        );
        assert_eq!(refused(&bytes[..1_904 + 3 * 372 - 1]), at(1, 3, 0), "{nth}");
    }
}

/// Every unit a member of its own, as before request R-5.
fn unit_by_unit(units: &[Unit]) -> Vec<RosterMember> {
    let one = |unit: &Unit| RosterMember {
        number: unit.number,
        region: unit.region,
        defaults: unit.defaults,
        good: unit_is_good(unit),
        deviations: unit_deviations(unit),
        units: 1,
    };
    units.iter().map(one).collect()
}

#[test]
fn a_roster_without_groups_gives_the_members_that_it_gave() {
    for class in ungrouped() {
        for seed in 0..12 {
            let book = make(seed, class, Some([0, 1, 5, 7, 13, 76][seed as usize % 6])).unwrap();
            assert!(book.units.iter().all(|unit| unit.group == 0), "{class}");
            let roster = unit_by_unit(&book.units);
            assert_eq!(grouped(&book.units), roster, "{class} {seed}");
            let before = settle_roster(&book, &roster, &roster_views(&book, &roster));
            assert_eq!(settle_book(&book), before, "{class} {seed}");
            // Each unit alone in a group, with a number of its own.
            let mut alone = book.clone();
            alone.units.iter_mut().zip(1..).for_each(|(unit, group)| unit.group = group);
            assert_eq!(printed(&alone), printed(&book), "{class} {seed}");
        }
    }
}

fn roster_of(seed: u64) -> usize {
    [1, 5, 7, 13, 76, 477, 509, 511, 512][if seed < 45 { seed as usize % 5 } else { seed as usize % 9 }]
}

/// Other numbers for the groups of a book, different from each other.
#[test]
fn the_number_of_a_group_does_not_matter() {
    for class in GROUPED {
        for seed in 0..54 {
            let book = make(seed, class, Some(roster_of(seed))).unwrap();
            let numbers: BTreeSet<i128> =
                book.units.iter().map(|unit| unit.group).filter(|&group| group != 0).collect();
            for renumber in
                [|nth: i128| nth + 1, |nth: i128| 65_535 - nth, |nth: i128| 1 + (7_919 * nth + 31) % 65_521]
            {
                let place_of = |group: i128| numbers.iter().position(|&number| number == group);
                let mut other = book.clone();
                for unit in &mut other.units {
                    unit.group = place_of(unit.group).map_or(0, |nth| renumber(nth as i128));
                }
                assert_eq!(printed(&other), printed(&book), "{class} {seed}");
            }
        }
    }
}

/// A unit cut into a group of units that add up to it, generators and loads, prints what it printed.
#[test]
fn a_group_does_what_its_units_add_up_to() {
    let mut chance = Chance::new(5);
    for class in ungrouped() {
        for seed in 0..15 {
            let members = [1, 5, 7, 13, 76][seed as usize % 5];
            let book = make(seed, class, Some(members)).unwrap();
            let total = members + chance.pick(&[1, 5, 7, 13, 76, 435]);
            let (after, whole) = cut(&mut chance, &book, total);
            assert_eq!((after.units.len(), grouped(&after.units).len()), (total, members), "{class} {seed}");
            assert_eq!(read_book(&to_bytes(&after)).as_ref(), Ok(&after), "{class} {seed}");
            assert_eq!(printed(&after), printed(&whole), "{class} {seed}");
            check(&after, &settle_book(&after).unwrap()).unwrap();
        }
    }
}

/// What the books of the classes with groups have, at least so often.
#[test]
fn made_books_have_groups_of_every_sort() {
    let mut seen: BTreeMap<&str, u32> = BTreeMap::new();
    let mut sizes = BTreeSet::new();
    for class in GROUPED {
        for seed in 0..120 {
            let book = make(seed, class, Some(roster_of(seed))).unwrap();
            let members: Vec<&[Unit]> = by_member(&book.units).collect();
            let is_group = |units: &[Unit]| units[0].group != 0;
            let mut note =
                |what: &'static str, shown: bool| *seen.entry(what).or_default() += u32::from(shown);
            sizes.extend(members.iter().filter(|units| is_group(units)).map(|units| units.len()));
            let large: Vec<&[Unit]> = members.iter().copied().filter(|units| units.len() > 2).collect();
            let bad_at = |units: &[Unit]| -> Vec<usize> {
                (0..units.len()).filter(|&place| !unit_is_good(&units[place])).collect()
            };
            note("only the first is bad", large.iter().any(|units| bad_at(units) == [0]));
            note("only the last is bad", large.iter().any(|units| bad_at(units) == [units.len() - 1]));
            note(
                "only one between is bad",
                large
                    .iter()
                    .any(|units| bad_at(units).len() == 1 && bad_at(units)[0] % (units.len() - 1) > 0),
            );
            note("the whole roster", members.len() == 1 && book.units.len() > 1);
            note("the first units", members.len() > 1 && members[0].len() > 1);
            note("the last units", members.len() > 1 && members[members.len() - 1].len() > 1);
            let pairs = || members.windows(2).filter(|pair| is_group(pair[0]) && is_group(pair[1]));
            let apart = |pair: &[&[Unit]]| (pair[0][0].group - pair[1][0].group).abs();
            note("side by side, one number unused between", pairs().any(|pair| apart(pair) == 2));
            note("side by side, none unused", pairs().any(|pair| apart(pair) == 1));
            note(
                "next to an ungrouped unit",
                members.windows(2).any(|pair| is_group(pair[0]) != is_group(pair[1])),
            );
            note("a group of one", members.iter().any(|units| is_group(units) && units.len() == 1));
            let mixed =
                |units: &[Unit]| units.iter().any(|unit| unit.load) && units.iter().any(|unit| !unit.load);
            note("generators and loads", members.iter().any(|units| mixed(units)));
            let roster = grouped(&book.units);
            let cancels = |member: &&RosterMember| member.units > 1 && member.deviations == [0; POINTS];
            note("deviations that cancel", roster.iter().any(|member| cancels(&member)));
            let regions: BTreeSet<usize> =
                roster.iter().filter(|member| member.units > 1).map(|member| member.region).collect();
            note("in several regions", regions.len() > 1);
            let views = roster_views(&book, &roster);
            let good_in =
                |region: usize| book.units.iter().any(|unit| unit.region == region && unit_is_good(unit));
            let no_member = |region: usize| views[region].members > 0 && views[region].good_members == 0;
            note(
                "no good member, but a good unit",
                (0..REGIONS).any(|region| no_member(region) && good_in(region)),
            );
        }
    }
    println!("{seen:#?} {sizes:?}");
    assert!(seen.values().all(|&books| books >= 10), "{seen:#?}");
    for size in [1, 2, 3, 5, 7, 13, 76, 477, 509, 511, 512] {
        assert!(sizes.contains(&size), "{size} of {sizes:?}");
    }
}

/// A book settled by a wrong reading of the rule.
type Reading = fn(&Book) -> Vec<Settled>;

/// By other members than there are.
fn by_members(book: &Book, member: impl Fn(&[Unit], RosterMember) -> RosterMember) -> Vec<Settled> {
    let roster: Vec<RosterMember> =
        by_member(&book.units).zip(grouped(&book.units)).map(|(units, right)| member(units, right)).collect();
    settle_roster(book, &roster, &roster_views(book, &roster)).unwrap()
}

/// By another RCR.
fn by_rcr(book: &Book, wrong: impl Fn(&Requirement, &[RosterMember], &[RegionView]) -> i128) -> Vec<Settled> {
    let roster = grouped(&book.units);
    let views = roster_views(book, &roster);
    let one = |requirement: &Requirement| {
        settle_with_rcr(requirement, book, &roster, &views, wrong(requirement, &roster, &views)).unwrap()
    };
    book.requirements.iter().map(one).collect()
}

/// The book with a percent rule that every roster keeps to.
fn bearing_all(book: &Book) -> Book {
    let mut book = book.clone();
    book.settings.bad_unit_percent = 100;
    book
}

fn summed(units: &[Unit], deviations: impl Fn(&Unit) -> [i128; POINTS]) -> [i128; POINTS] {
    std::array::from_fn(|point| units.iter().map(|unit| deviations(unit)[point]).sum())
}

/// Positive and negative parts of a good group's units one by one.
fn parts_unit_by_unit(book: &Book) -> Vec<Settled> {
    by_rcr(book, |requirement, roster, views| {
        let right = rcr(requirement, book, roster, views);
        let mut units = unit_by_unit(&book.units);
        let goods =
            by_member(&book.units).zip(roster).flat_map(|(units, member)| vec![member.good; units.len()]);
        units.iter_mut().zip(goods).for_each(|(unit, good)| unit.good = good);
        if right == 0 {
            return 0;
        }
        rcr(requirement, &bearing_all(book), &units, views)
    })
}

/// The percent rule over records.
fn records_counted(book: &Book) -> Vec<Settled> {
    by_rcr(book, |requirement, roster, views| {
        let of_set: Vec<&RosterMember> =
            roster.iter().filter(|member| requirement.includes(member.region)).collect();
        let all: usize = of_set.iter().map(|member| member.units).sum();
        let bad: usize = of_set.iter().filter(|member| !member.good).map(|member| member.units).sum();
        if 100 * bad as i128 > book.settings.bad_unit_percent * all as i128 {
            return 0;
        }
        rcr(requirement, &bearing_all(book), roster, views)
    })
}

const WRONG_READINGS: [(&str, Reading); 11] = [
    ("positive and negative parts unit by unit", parts_unit_by_unit),
    ("records counted for the percent rule", records_counted),
    ("a bad unit left out of its group", |book| {
        by_members(book, |units, right| {
            let good: Vec<Unit> = units.iter().filter(|unit| unit_is_good(unit)).cloned().collect();
            RosterMember { good: !good.is_empty(), deviations: summed(&good, unit_deviations), ..right }
        })
    }),
    ("the last group not counted", |book| {
        let mut roster = grouped(&book.units);
        if roster.last().is_some_and(|member| member.units > 1) {
            roster.pop();
        }
        settle_roster(book, &roster, &roster_views(book, &roster)).unwrap()
    }),
    ("the primary's kind for all", |book| {
        by_members(book, |units, right| {
            let load = units[0].load;
            RosterMember {
                deviations: summed(units, |unit| unit_deviations(&Unit { load, ..unit.clone() })),
                ..right
            }
        })
    }),
    ("the primary's deviations alone", |book| {
        by_members(book, |units, right| RosterMember { deviations: unit_deviations(&units[0]), ..right })
    }),
    ("bad only by the primary", |book| {
        by_members(book, |units, right| RosterMember { good: unit_is_good(&units[0]), ..right })
    }),
    ("bad only by the last unit", |book| {
        by_members(book, |units, right| RosterMember { good: unit_is_good(&units[units.len() - 1]), ..right })
    }),
    ("the last unit's number and defaults", |book| {
        by_members(book, |units, right| {
            let last = &units[units.len() - 1];
            RosterMember { number: last.number, defaults: last.defaults, ..right }
        })
    }),
    ("a good unit makes a residual live", |book| {
        let roster = grouped(&book.units);
        let mut views = roster_views(book, &roster);
        for (region, view) in views.iter_mut().enumerate() {
            view.good_members =
                book.units.iter().filter(|unit| unit.region == region && unit_is_good(unit)).count();
        }
        settle_roster(book, &roster, &views).unwrap()
    }),
    ("no groups", |book| settle_book(&without_groups(book)).unwrap()),
];

#[test]
fn made_books_tell_every_wrong_reading_apart() {
    let mut told: BTreeMap<&str, u32> = BTreeMap::new();
    for class in GROUPED {
        for seed in 0..120 {
            let book = make(seed, class, Some([1, 5, 13, 76][seed as usize % 4])).unwrap();
            let settled = settle_book(&book).unwrap();
            for (what, reading) in WRONG_READINGS {
                *told.entry(what).or_default() += u32::from(reading(&book) != settled);
            }
        }
    }
    println!("of 600 books: {told:#?}");
    assert!(told.values().all(|&books| books >= 12), "of 600 books: {told:#?}");
}
