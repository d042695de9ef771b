//! Defaults from seven days of record: worked weeks, the running week beside the list form, the program on books
//! one after another, and what the makers reach.

use std::collections::BTreeSet;
use std::fs;

use second::book::{read_book, Refusal, UNITS_AT};
use second::cents::settle_book;
use second::chance::Chance;
use second::doors::Doors;
use second::performance::{performance, region_views};
use second::quantities::*;
use second::replay::replay;
use second::week::*;
use second::week_books::{chosen_unit, stored, trial, CHOSEN_LIMIT};
use second::week_script::write_script;
use second::worked::listing_book;
use second::write::*;
use Whose::{Group, Residual, Unit};

fn answer(live: i128, default: i128) -> Result<WeekDefault, Refusal> {
    Ok(WeekDefault { live, default })
}

fn all_live(performances: &[i128]) -> Vec<Interval> {
    performances.iter().map(|&performance| Some(performance)).collect()
}

fn week_of(whose: Whose, performances: &[i128]) -> Result<WeekDefault, Refusal> {
    member_week(whose, &all_live(performances))
}

#[test]
fn no_live_interval_and_one() {
    for whose in [Unit, Group(2), Group(512), Residual] {
        assert_eq!(week_of(whose, &[]), answer(0, 0));
        assert_eq!(member_week(whose, &[None; INTERVALS_LIMIT]), answer(0, 0));
        assert_eq!(member_week(whose, &[None, Some(-7), None]), answer(1, -7));
        assert_eq!(member_week(whose, &[None, Some(7), None]), answer(1, 0));
    }
}

#[test]
fn the_nearest_of_the_average_over_the_live_ones() {
    assert_eq!(week_of(Unit, &[-1, 0]), answer(2, -1));
    assert_eq!(week_of(Unit, &[-1, 1_000]), answer(2, -1), "above 0 counts and adds 0");
    assert_eq!(week_of(Unit, &[-1, -2]), answer(2, -2));
    assert_eq!(week_of(Unit, &[-1, 0, 0]), answer(3, 0));
    assert_eq!(week_of(Unit, &[-2, 0, 0]), answer(3, -1));
    assert_eq!(week_of(Unit, &[-1, 0, 0, 0]), answer(4, 0));
    assert_eq!(week_of(Unit, &[-2, 0, 0, 0]), answer(4, -1));
    assert_eq!(week_of(Unit, &[5, 6]), answer(2, 0));
    assert_eq!(member_week(Unit, &[Some(-1), None, Some(0), None]), answer(2, -1), "not over all intervals");
}

#[test]
fn totals_that_pass_64_bits() {
    let limit = RESIDUAL_PERFORMANCE_LIMIT;
    assert_eq!(limit, 2_880_000_000_000_000_000);
    assert_eq!(week_of(Residual, &[-limit; INTERVALS_LIMIT]), Err(Refusal::of(14)));
    assert_eq!(week_of(Group(2), &[-2 * PERFORMANCE_LIMIT; INTERVALS_LIMIT]), Err(Refusal::of(14)));
    assert_eq!(week_of(Unit, &[-PERFORMANCE_LIMIT; INTERVALS_LIMIT]), answer(2_016, UNIT_DEFAULT_LOWEST));
    assert_eq!(week_of(Residual, &[limit; INTERVALS_LIMIT]), answer(2_016, 0));
    // 35 at the limit among 2,016 are exactly the lowest default.
    let mut week = [0; INTERVALS_LIMIT];
    week[..35].fill(-limit);
    assert_eq!(35 * limit, -RESIDUAL_DEFAULT_LOWEST * 2_016);
    assert_eq!(week_of(Residual, &week), answer(2_016, RESIDUAL_DEFAULT_LOWEST));
    week[35] = -1_007;
    assert_eq!(week_of(Residual, &week), answer(2_016, RESIDUAL_DEFAULT_LOWEST));
    week[35] = -1_008;
    assert_eq!(week_of(Residual, &week), Err(Refusal::of(14)), "judged on the rounded average");
}

#[test]
fn limits_of_a_live_performance() {
    for (whose, limit) in [
        (Unit, PERFORMANCE_LIMIT),
        (Group(2), 2 * PERFORMANCE_LIMIT),
        (Group(512), RESIDUAL_PERFORMANCE_LIMIT),
        (Residual, RESIDUAL_PERFORMANCE_LIMIT),
    ] {
        assert_eq!(week_of(whose, &[limit]), answer(1, 0));
        for beyond in [limit + 1, -limit - 1, i64::MIN.into(), i64::MAX.into()] {
            assert_eq!(week_of(whose, &[beyond]), Err(Refusal::of(17)));
        }
        assert_eq!(week_of(whose, &[0; INTERVALS_LIMIT + 1]), Err(Refusal::of(17)));
        assert_eq!(member_week(whose, &[None; INTERVALS_LIMIT + 1]), Err(Refusal::of(17)));
    }
    assert_eq!(week_of(Unit, &[-PERFORMANCE_LIMIT]), answer(1, UNIT_DEFAULT_LOWEST));
    assert_eq!(week_of(Group(2), &[-PERFORMANCE_LIMIT - 1]), Err(Refusal::of(14)));
    assert_eq!(
        week_of(Group(2), &[-PERFORMANCE_LIMIT - 1, 1 - PERFORMANCE_LIMIT]),
        answer(2, UNIT_DEFAULT_LOWEST)
    );
}

#[test]
fn a_roster_tests_17_for_all_before_14_for_any() {
    let under = (Group(2), all_live(&[-2 * PERFORMANCE_LIMIT]));
    let beyond = (Unit, all_live(&[PERFORMANCE_LIMIT + 1]));
    let fine = (Residual, all_live(&[-1, -2]));
    assert_eq!(roster_week(&[under.clone(), beyond]), Err(Refusal::of(17)));
    assert_eq!(roster_week(&[fine.clone(), under]), Err(Refusal::of(14)));
    assert_eq!(roster_week(&[fine.clone(), fine]), Ok(vec![answer(2, -2).unwrap(); 2]));
    assert_eq!(roster_week(&[]), Ok(vec![]));
}

#[test]
fn who_the_member_is() {
    assert_eq!(
        [0, 1, 2, 512].map(Whose::from_number),
        [Ok(Residual), Ok(Unit), Ok(Group(2)), Ok(Group(512))]
    );
    assert_eq!(Whose::from_number(513), Err(Refusal::of(5)));
    assert_eq!(Whose::from_number(65_535), Err(Refusal::of(5)));
}

/// After any list of intervals the record reads what the list form gives; it is one that is left.
#[test]
fn the_running_week_reads_what_the_list_gives() {
    let mut chance = Chance::new(7);
    for _ in 0..300 {
        let number = chance.pick(&[0, 1, 2, 3, 511, 512]);
        let whose = Whose::from_number(number).unwrap();
        let limit = whose.performance_limit();
        let mut running = RunningWeek::default();
        let mut week = Vec::new();
        let length = chance.pick(&[0, 1, 5, 40, 40, INTERVALS_LIMIT]);
        let most = chance.pick(&[limit, limit, 10]);
        for _ in 0..length {
            let performance = chance.pick(&[-most, -1, 0, most]).max(-chance.any_size(limit));
            let interval = (!chance.one_in(3)).then_some(performance);
            week.push(interval);
            running = running.add(number, interval).unwrap();
            assert!(running.is_left());
        }
        assert_eq!(running.seen, length as i128);
        assert_eq!(running.read(number), member_week(whose, &week));
        let more = running.add(number, None).map(|week| week.seen);
        assert_eq!(
            more,
            if length == INTERVALS_LIMIT { Err(Refusal::of(17)) } else { Ok(length as i128 + 1) }
        );
    }
}

#[test]
fn records_that_a_run_leaves_and_none_leaves() {
    let last = RESIDUAL_PERFORMANCE_LIMIT - 1;
    let record = |seen, live, high, low| RunningWeek { seen, live, high, low };
    for left in [
        record(0, 0, 0, 0),
        record(2_016, 2_016, 2_016, 0),
        record(2_016, 2_016, 2_015, last),
        record(5, 0, 0, 0),
        record(5, 1, 0, last),
        record(5, 1, 1, 0),
    ] {
        assert!(left.is_left(), "{left:?}");
    }
    for wrong in [
        record(2_017, 0, 0, 0),
        record(5, 6, 0, 0),
        record(5, 0, 0, 1),
        record(5, 1, 1, 1),
        record(5, 1, 2, 0),
        record(5, 1, 0, last + 1),
    ] {
        assert_eq!(wrong.read(1), Err(Refusal::of(11)), "{wrong:?}");
        assert_eq!(wrong.add(513, None), Err(Refusal::of(11)), "{wrong:?}, 11 before 5");
    }
    assert_eq!(record(2_016, 0, 0, 0).add(513, None), Err(Refusal::of(5)), "5 before 17");
}

#[test]
fn lines_of_the_doors() {
    let mut doors = Doors::default();
    let mut says = |line: &str, answer: &str| assert_eq!(doors.line(line), answer, "{line}");
    says("week 1 3:-1,2*5 1:3 2", "week 0 2 -1 77 77 77");
    says("week 1 3:-1,2*5 1:255 3", "week 0 3 0 77 77 77 77");
    says("week 1 9:9*-1 1:255 2", "week 12 77 77 77 77 77");
    says("week 513 2017:2017*0 253:253*0 1", "week 12 77 77 77 77");
    says("week 513 2017:2017*0 253:253*0 2", "week 5 77 77 77 77 77");
    says("week 0 2017:2017*0 253:253*0 2", "week 17 77 77 77 77 77");
    says("weeks 2 2:1,0 4:-1,-2,-3,-4 2:3,2 2 3", "weeks 0 counts 2 1 77 77 77 defaults -2 -4 77 77 77 77");
    says("keep 0 0", "keep 0 0 77 77 77");
    says("add 1 1 -5 2", "add 0 5 65537 77 77 77");
    says("add 1 0 -9223372036854775808 2", "add 0 5 65538 77 77 77");
    says("add 1 1 -9223372036854775808 2", "add 17 5 65538 77 77 77");
    says("add 1 1 -4 1", "add 12 5 65538 77 77 77");
    says("add 0 1 -2880000000000000000 2", "add 0 5 4295098371 77 77 77");
    says("read 0 2 2", "read 14 77 77 77 77 77 words 5 4295098371 77 77 77");
    says("keep 5 65538", "keep 5 65538 77 77 77");
    says("read 1 2 2", "read 0 1 -5 77 77 77 words 5 65538 77 77 77");
    says("keep 5 281474976776194", "keep 5 281474976776194 77 77 77");
    says("read 513 2 2", "read 11 77 77 77 77 77 words 5 281474976776194 77 77 77");
}

/// Products of lengths that leave 64 bits are refusal 12; nothing is written.
#[test]
fn a_roster_too_large() {
    let answer = Doors::default().line("weeks 2147483648 8589934592:2*1 0: 0: 8589934592 8589934592");
    let before = " 77".repeat(1_027);
    assert_eq!(answer, format!("weeks 12 counts{before} defaults{before}"));
}

fn residuals(from: usize) -> String {
    ["QLD1", "NSW1", "VIC1", "SA1", "TAS1"][from..]
        .iter()
        .map(|name| format!("residual {name} raise 0 0 lower 0 0\n"))
        .collect()
}

#[test]
fn books_one_after_another() {
    assert_eq!(replay(b""), (residuals(0), String::new()));
    let book = to_bytes(&listing_book());
    let lines = |count: usize| {
        format!(
            "unit 1 raise {count} 0 lower 0 0\nunit 2 raise {count} -3375000000 lower 0 0\n\
             residual QLD1 raise {count} -7875000000 lower 0 0\n{}",
            residuals(1)
        )
    };
    for count in [1, 2, 3, 7, 99] {
        assert_eq!(replay(&book.repeat(count)), (lines(count), String::new()));
    }
    assert_eq!(replay(&book.repeat(101)), (lines(101), "100 books\n".to_string()));
    let (printed, said) = replay(&book.repeat(INTERVALS_LIMIT));
    assert_eq!((printed, said.lines().count(), said.lines().last()), (lines(2_016), 20, Some("2000 books")));
    let longer = [book.repeat(INTERVALS_LIMIT), vec![0]].concat();
    assert_eq!(replay(&longer).0, "refused 17 2017 0 0\n");
}

#[test]
fn a_refused_book_ends_it() {
    let book = to_bytes(&listing_book());
    let refused = |bytes: &[u8]| replay(bytes).0;
    assert_eq!(refused(&book[..55]), "refused 1 1 0 0\n");
    assert_eq!(refused(&[&book[..], &book[..55]].concat()), "refused 1 2 0 0\n");
    assert_eq!(refused(&[&book[..], &[0; 55]].concat()), "refused 1 2 0 0\n", "not 4, and 1 before 2");
    assert_eq!(refused(&[&book[..], &[0; 56]].concat()), "refused 2 2 0 0\n");
    assert_eq!(refused(&[&book[..], &book[..book.len() - 1]].concat()), "refused 1 2 1 0\n");
    assert_eq!(refused(&[&book[..], &book[..56]].concat()), "refused 1 2 1 0\n", "no byte of the settings");
    assert_eq!(
        refused(&[&book[..], &book[..UNITS_AT + 372]].concat()),
        "refused 1 2 2 0\n",
        "none of unit 2"
    );
    let mut wrong = listing_book();
    wrong.units[0].region = 5;
    assert_eq!(refused(&[&book[..], &to_bytes(&wrong), &book[..]].concat()), "refused 81 2 1 0\n");
    let mut wrong = listing_book();
    wrong.units[1].readings[74] = 100_001;
    assert_eq!(refused(&[&book[..], &book, &to_bytes(&wrong), &book].concat()), "refused 84 3 2 75\n");
    wrong.frequencies[4].frequencies[8] = 0;
    assert_eq!(refused(&[&to_bytes(&wrong)[..], &book].concat()), "refused 74 1 5 9\n");
}

#[test]
fn different_numbers_of_a_week() {
    let idle = |numbers: std::ops::Range<i128>| {
        let mut book = base_book();
        book.units = numbers.map(|number| base_unit(number, 0)).collect();
        book.requirements.push(base_requirement(1, 1, Direction::Raise));
        book
    };
    let (first, same, more) = (to_bytes(&idle(0..512)), to_bytes(&idle(100..400)), to_bytes(&idle(512..513)));
    assert_eq!(replay(&[&first[..], &same].concat()).0.lines().count(), 517);
    assert_eq!(replay(&[&first[..], &same, &more, &same].concat()).0, "refused 5 3 0 0\n");
    let mut wrong = idle(512..513);
    wrong.requirements[0].price = PRICE_LIMIT + 1;
    let refused = replay(&[&first[..], &to_bytes(&wrong)].concat()).0;
    assert_eq!(refused, "refused 10 2 1 0\n", "that book's own refusals come first");
    assert_eq!(replay(&[&first[..], &more[..more.len() - 1]].concat()).0, "refused 1 2 1 0\n");
}

#[test]
fn a_chosen_unit_performs_as_chosen() {
    let mut chance = Chance::new(3);
    let mut chosen = vec![0, 1, -1, 2, 74, 75, -75, CHOSEN_LIMIT, -CHOSEN_LIMIT];
    chosen.extend((0..300).map(|_| chance.between(-CHOSEN_LIMIT, CHOSEN_LIMIT)));
    for (turn, performance_wanted) in chosen.into_iter().enumerate() {
        let direction = Direction::BOTH[turn % 2];
        let unit = chosen_unit(9, 2, direction, performance_wanted);
        // The region that the week's makers give it.
        let [run, _] = stored();
        let first = second::book::read_first_book(&run.bytes).unwrap().0;
        let measures = region_views(&first)[0].measures;
        let measures = measures.map(|measure| if direction == Direction::Raise { measure } else { -measure });
        let deviations = second::deviation::unit_deviations(&unit);
        assert_eq!(performance(direction, &measures, &[false; POINTS], &deviations), performance_wanted);
        let mut book = base_book();
        book.units.push(unit);
        book.requirements.push(base_requirement(1, 1, direction));
        assert!(read_book(&to_bytes(&book)).is_ok(), "{performance_wanted}");
    }
}

#[test]
fn stored_runs() {
    let lines = "\
unit 7 raise 2 -4 lower 1 -5
unit 9 raise 3 -666666666666668 lower 0 0
unit 12 raise 0 0 lower 0 0
unit 65535 raise 0 0 lower 0 0
residual QLD1 raise 3 -332 lower 1 0
residual NSW1 raise 0 0 lower 0 0
residual VIC1 raise 0 0 lower 1 0
residual SA1 raise 0 0 lower 0 0
residual TAS1 raise 0 0 lower 0 0
";
    for (run, printed) in stored().iter().zip([lines, "refused 9 2 2 0\n"]) {
        assert_eq!(replay(&run.bytes).0, printed, "{}", run.name);
        let path = |ending: &str| format!("{}/stored/{}.{ending}", env!("CARGO_MANIFEST_DIR"), run.name);
        assert!(fs::read(path("stdin")).unwrap() == run.bytes, "{}", run.name);
        assert_eq!(fs::read_to_string(path("stdout")).unwrap(), printed);
    }
}

/// Each door reaches each of its replies, and the edges are met.
#[test]
fn scripts_reach_every_reply() {
    let mut script = Vec::new();
    write_script(2_000, 5, &mut script).unwrap();
    let mut doors = Doors::default();
    let mut reached = BTreeSet::new();
    for line in String::from_utf8(script).unwrap().lines() {
        let answer = doors.line(line);
        let words: Vec<&str> = answer.split(' ').collect();
        reached.insert(format!("{} {}", words[0], words[1]));
        if answer.starts_with("week 0") {
            reached.insert(format!("default {}", words[3]));
            reached.insert(format!("count {}", words[2]));
        }
    }
    for (door, replies) in
        [("week", vec![0, 5, 12, 14, 17]), ("weeks", vec![0, 5, 12, 14, 17]), ("add", vec![0, 5, 11, 12, 17])]
    {
        for reply in replies {
            assert!(reached.contains(&format!("{door} {reply}")), "{door} {reply}");
        }
    }
    for wanted in ["read 0", "read 5", "read 11", "read 12", "read 14", "count 0", "count 1", "count 2016"] {
        assert!(reached.contains(wanted), "{wanted}");
    }
    for default in [0, -1, UNIT_DEFAULT_LOWEST, UNIT_DEFAULT_LOWEST + 1, RESIDUAL_DEFAULT_LOWEST] {
        assert!(reached.contains(&format!("default {default}")), "{default}");
    }
}

#[test]
fn weeks_of_books_reach_every_outcome() {
    let mut reached = BTreeSet::new();
    for turn in 0..600 {
        let (printed, _) = replay(&trial(1, turn).bytes);
        let first: Vec<&str> = printed.lines().next().unwrap().split(' ').collect();
        reached.insert(if first[0] == "refused" { first[..2].join(" ") } else { "lines".to_string() });
        if printed.contains(" -50000000000000000 ") {
            reached.insert("limit".to_string());
        }
    }
    let numbers = [1, 2, 3, 5, 6, 71, 72, 73, 74, 81, 82, 83, 84, 9, 10, 14, 17]
        .map(|number| format!("refused {number}"));
    for outcome in numbers.iter().map(String::as_str).chain(["lines", "limit"]) {
        assert!(reached.contains(outcome), "{outcome}");
    }
    assert!(!reached.contains("refused 4"));
}

/// A week of one book has the live performances of that book's own listing, below zero.
#[test]
fn one_book_gives_its_own_performances() {
    for seed in 0..40 {
        let mut book = second::make::make(seed, "plain", Some(5)).unwrap();
        book.requirements = vec![base_requirement(1, 31, Direction::Raise)];
        let (printed, _) = replay(&to_bytes(&book));
        let settled = settle_book(&book).unwrap();
        for (line, shown) in settled[0].lines.iter().zip(printed.lines()).take(5) {
            let second::members::Name::Unit(number) = line.member.name else { panic!("a unit") };
            let expected = match line.member.standing {
                second::performance::Standing::Live => {
                    format!("1 {}", line.member.payment_performance.min(0))
                }
                _ => "0 0".to_string(),
            };
            assert!(shown.starts_with(&format!("unit {number} raise {expected} lower ")), "{seed}: {shown}");
        }
    }
}

/// A group's week goes by its primary's number, of however many units it is from book to book; the others of a group have no line.
#[test]
fn weeks_of_groups() {
    let mut first = listing_book();
    (first.units[0].group, first.units[1].group) = (9, 9);
    first.units[1].defaults = [0; 6];
    // Together 11,250,000,000 - 3,375,000,000, turned below zero.
    let turned = |book: &second::book::Book| {
        let mut book = book.clone();
        book.units.iter_mut().for_each(|unit| unit.load = !unit.load);
        book
    };
    let group = |raise: &str| format!("unit 1 raise {raise} lower 0 0\n");
    let printed = |books: &[&second::book::Book]| {
        let bytes: Vec<u8> = books.iter().flat_map(|book| to_bytes(book)).collect();
        replay(&bytes).0
    };
    let below = turned(&first);
    assert!(printed(&[&first]).starts_with(&(group("1 0") + "residual QLD1 raise 1 -7875000000")));
    assert!(printed(&[&below]).starts_with(&(group("1 -7875000000") + "residual QLD1 raise 1 0")));
    // The same number as a group of two, as a unit alone, and as a bad group.
    let mut alone = below.clone();
    alone.units.truncate(1);
    let mut bad = below.clone();
    bad.units[1].good[74] = false;
    bad.units[1].readings[74] = 0;
    let all = printed(&[&below, &alone, &bad]);
    assert!(all.starts_with(&group("2 -9562500000")), "{all}");
    // Unit 2 has a line where it is a member of its own.
    let all = printed(&[&below, &listing_book()]);
    assert!(all.starts_with(&(group("2 -3937500000") + "unit 2 raise 1 -3375000000 lower 0 0\n")), "{all}");
}

/// Three units at their largest are within a group's limit; an average below the book's field is refusal 14.
#[test]
fn a_groups_average_at_its_limit() {
    let book = |parts: &[i128]| {
        let [run, _] = stored();
        let mut book = second::book::read_first_book(&run.bytes).unwrap().0;
        let part = |(place, &performance): (usize, &i128)| {
            let unit = chosen_unit(5 + place as i128, 0, Direction::Raise, performance);
            second::book::Unit { group: 3, ..unit }
        };
        book.units = parts.iter().enumerate().map(part).collect();
        to_bytes(&book)
    };
    let (third, more) = (UNIT_DEFAULT_LOWEST / 3, UNIT_DEFAULT_LOWEST / 3 - 1);
    assert!(replay(&book(&[third; 3])).0.starts_with("unit 5 raise 1 -5625000000000000 lower"));
    assert_eq!(replay(&book(&[third, more, third])).0, "refused 14 0 0 0\n");
    // An average of a half more than the limit is one below it, a third is not.
    let [limit, beyond] = [book(&[third; 3]), book(&[third, third, more])];
    assert_eq!(replay(&[&limit[..], &beyond].concat()).0, "refused 14 0 0 0\n");
    assert!(replay(&[&limit[..], &beyond, &limit].concat())
        .0
        .starts_with("unit 5 raise 3 -5625000000000000 lower"));
    assert_eq!(replay(&[&beyond[..], &beyond, &limit].concat()).0, "refused 14 0 0 0\n");
}

/// The weeks of books have groups at the limit of their field on both sides, and members at the limit of their number.
#[test]
fn makers_have_weeks_of_groups() {
    let mut met: BTreeSet<String> = BTreeSet::new();
    for turn in 0..2_000 {
        let trial = trial(11, turn);
        let kind = trial.name.splitn(3, '-').nth(2).expect("a kind").to_string();
        if ["group", "groups", "members"].contains(&kind.as_str()) {
            let printed = replay(&trial.bytes).0;
            let answer = if printed.starts_with("refused") {
                printed.trim_end().to_string()
            } else {
                "lines".to_string()
            };
            met.insert(format!("{kind}: {answer}"));
            if printed.contains(" -5625000000000000 ") {
                met.insert(format!("{kind}: at the limit"));
            }
        }
    }
    let wanted = [
        "group: lines",
        "group: refused 14 0 0 0",
        "group: at the limit",
        "groups: lines",
        "members: lines",
        "members: refused 5 2 0 0",
    ];
    assert!(wanted.iter().all(|what| met.contains(*what)), "{met:?}");
    let known = ["refused 14 0 0 0", "refused 5 2 0 0"];
    let mut refused = met.iter().filter(|what| what.contains("refused"));
    assert!(refused.all(|what| known.iter().any(|known| what.ends_with(known))), "{met:?}");
}
