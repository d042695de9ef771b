//! Runs of unit records (request R-6): what they leave and where they are refused, worked by hand on a book of six units; the same as
//! single calls on made books; and what the scripts have of them.

use std::collections::{BTreeMap, BTreeSet};

use second::book::*;
use second::boundary::*;
use second::make::{make, CLASSES};
use second::quantities::*;
use second::records::hex_bytes;
use second::script::Script;
use second::sweep::{put, small_book};
use second::write::to_bytes;

/// What stands in every list before a call writes there.
const BEFORE: i128 = 77;

fn err(number: u8, place: usize, t: usize) -> Step {
    Err(Refusal { number, place, t })
}

/// A book with its five frequency records taken, and the bytes of its units.
fn begun(book: &Book) -> (Lent, Vec<u8>) {
    let bytes = to_bytes(book);
    let mut lent = Lent::default();
    for (name, ..) in NAMES {
        lent.fill(name, 8 * 512 + 8, BEFORE);
    }
    lent.call("contents", &bytes).unwrap();
    lent.call("settings", &bytes[56..]).unwrap();
    for region in 0..REGIONS {
        lent.call("frequency", &bytes[64 + 368 * region..]).unwrap();
    }
    let units_end = 1_904 + 372 * book.units.len();
    (lent, bytes[1_904..units_end].to_vec())
}

/// Units 1 to 6 of region 0: a generator 100 cMW above its start, five loads 30 above theirs.
fn begun_small() -> (Lent, Vec<u8>) {
    begun(&small_book())
}

/// The run with these fields: record from 1, place in it, width, value.
fn with(run: &[u8], fields: &[(usize, usize, usize, i128)]) -> Vec<u8> {
    let mut run = run.to_vec();
    for &(record, at, width, value) in fields {
        put(&mut run, 372 * (record - 1) + at, width, value);
    }
    run
}

fn words_of(lent: &Lent) -> Vec<i128> {
    lent.list("tally").numbers[..TALLY_WORDS].to_vec()
}

/// The same units one at a time.
fn one_at_a_time(lent: &Lent, run: &[u8]) -> Lent {
    let mut lent = lent.clone();
    for record in run.chunks(372) {
        assert_eq!(lent.call("unit", record), Ok(()));
    }
    lent
}

#[test]
fn what_a_run_leaves() {
    let (mut lent, run) = begun_small();
    assert_eq!(lent.call("units", &run[..372 * 5]), Ok(()));
    assert_eq!(words_of(&lent), [6, 6, 11, 6, 10_000, 10, 20, 7]);
    let numbers =
        |name: &str, from: usize, count: usize| lent.list(name).numbers[from..from + count].to_vec();
    assert_eq!(numbers("numbers", 0, 6), [1, 2, 3, 4, 5, 77]);
    assert_eq!(numbers("homes", 0, 6), [1, 1, 1, 1, 1, 77]);
    // 75 times 100 above; four loads, each 75 times 30 below.
    assert_eq!(numbers("sums", 0, 75), [7_500; 75]);
    assert_eq!(numbers("sums", 75, 75), [-9_000; 75]);
    assert_eq!(numbers("rows", 0, 8), [11_250_000_000, 0, 0, 0, -1_000, 0, 0, 0]);
    for row in 1..5 {
        assert_eq!(numbers("rows", 8 * row, 8), [-3_375_000_000, 0, 0, 0, -1_000, 0, 0, 0]);
    }
    assert_eq!(numbers("rows", 40, 1), [77]);
    // The last of the book leaves any number to the first requirement.
    assert_eq!(lent.call("units", &run[372 * 5..]), Ok(()));
    assert_eq!(words_of(&lent), [6, 6, 12, 0, 10_000, 10, 20, 7]);
}

/// What can be wrong with tally and lists before any record is looked at, with what a whole run is refused with.
fn wrong_before_the_first() -> Vec<(Lent, u8)> {
    let (honest, _) = begun_small();
    let mut all = Vec::new();
    for words in 0..TALLY_WORDS {
        let mut lent = honest.clone();
        lent.list_mut("tally").lent = words;
        all.push((lent, 12));
    }
    let words =
        [vec![u32::MAX as i128; 8], vec![0; 8], vec![6, 6, 5, 0, 1, 0, 0, 7], vec![6, 6, 12, 0, 1, 0, 0, 7]];
    for words in words {
        let mut lent = honest.clone();
        lent.put("tally", 0, &words);
        all.push((lent, 11));
    }
    for &name in &lists_of("units")[1..] {
        let mut lent = honest.clone();
        lent.list_mut(name).lent = 0;
        all.push((lent, 12));
    }
    for (name, place, number) in [("figures", 40, 8), ("measures", 0, 15_000_002), ("sums", 149, -1)] {
        let mut lent = honest.clone();
        lent.put(name, place, &[number]);
        all.push((lent, 11));
    }
    all
}

/// The whole run is refused at its first record, a ragged one with 1 and no place, an empty one not at all.
#[test]
fn over_any_tally_and_lists() {
    let (_, run) = begun_small();
    for (nth, (before, number)) in wrong_before_the_first().into_iter().enumerate() {
        let mut lent = before.clone();
        assert_eq!(lent.call("units", &run), err(number, 1, 0), "{nth}");
        assert_eq!(lent.call("units", &run[..372]), err(number, 1, 0), "{nth}");
        for bytes in [1, 2, 371, 373, 743, 745, 372 * 6 - 1] {
            assert_eq!(lent.call("units", &run[..bytes]), err(1, 0, 0), "{nth} {bytes}");
        }
        assert_eq!(lent.call("units", &[]), Ok(()), "{nth}");
        assert_eq!(lent, before, "{nth}");
    }
    let mut nothing = Lent::default();
    assert_eq!(nothing.call("units", &[]), Ok(()));
    assert_eq!(nothing.call("units", &[0]), err(1, 0, 0));
    assert_eq!(nothing.call("units", &[0; 372]), err(12, 1, 0));
}

/// A ragged run is refused whatever its whole records are, and none of them is added.
#[test]
fn ragged_runs_add_nothing() {
    let (before, run) = begun_small();
    let mut lent = before.clone();
    for bytes in (0..=run.len()).filter(|bytes| bytes % 372 != 0) {
        assert_eq!(lent.call("units", &run[..bytes]), err(1, 0, 0), "{bytes}");
    }
    assert_eq!(lent.call("units", &with(&run, &[(1, 2, 1, 5)])[..745]), err(1, 0, 0));
    assert_eq!(lent, before);
}

#[test]
fn refused_at_place_3_of_5() {
    let (before, run) = begun_small();
    let run = &run[..372 * 5];
    let faults = [
        ((3, 2, 1, 5), err(81, 3, 0)),
        ((3, 8, 4, 100_001), err(81, 3, 0)),
        ((3, 52, 8, 1), err(82, 3, 0)),
        ((3, 69, 1, 0x0F), err(83, 3, 0)),
        ((3, 72, 4, 100_001), err(84, 3, 1)),
        ((3, 368, 4, -100_001), err(84, 3, 75)),
        ((3, 0, 2, 2), err(9, 3, 0)),
        ((3, 0, 2, 0), err(9, 3, 0)),
    ];
    for (fault, refusal) in faults {
        // A wrong record after it is not told of.
        for later in [None, Some((4, 3, 1, 2)), Some((5, 12, 8, 1))] {
            let fields: Vec<_> = later.into_iter().chain([fault]).collect();
            let mut lent = before.clone();
            assert_eq!(lent.call("units", &with(run, &fields)), refusal, "{fields:?}");
            assert_eq!(words_of(&lent), [6, 6, 8, 3, 10_000, 10, 20, 7], "{fields:?}");
            assert_eq!(lent, one_at_a_time(&before, &run[..372 * 2]), "{fields:?}");
            // From the refused record on, and behind it.
            let mut on = lent.clone();
            assert_eq!(on.call("units", &run[372 * 2..]), Ok(()), "{fields:?}");
            assert_eq!(on, one_at_a_time(&before, run), "{fields:?}");
            assert_eq!(lent.call("units", &run[372 * 3..]), Ok(()), "{fields:?}");
            assert_eq!(words_of(&lent), [6, 6, 10, 6, 10_000, 10, 20, 7], "{fields:?}");
        }
    }
}

/// The place is the run's, not the book's: units 3 to 6 by a run after two single calls.
#[test]
fn a_run_counts_from_its_own_first() {
    let (before, run) = begun_small();
    let mut lent = one_at_a_time(&before, &run[..372 * 2]);
    assert_eq!(lent.call("unit", &with(&run, &[(3, 69, 1, 0x0F)])[372 * 2..]), err(83, 3, 0));
    assert_eq!(lent.call("units", &with(&run, &[(3, 69, 1, 0x0F)])[372 * 2..]), err(83, 1, 0));
    assert_eq!(lent.call("units", &with(&run, &[(6, 76, 4, 100_001)])[372 * 2..]), err(84, 4, 2));
    assert_eq!(words_of(&lent)[2], 11);
    assert_eq!(lent.call("unit", &run[372 * 5..]), Ok(()));
    assert_eq!(lent, one_at_a_time(&before, &run));
}

#[test]
fn past_the_last_announced_unit() {
    let (before, run) = begun_small();
    for more in [1, 2, 600] {
        let mut lent = before.clone();
        let longer = [&run[..], &vec![0xFF; 372 * more]].concat();
        assert_eq!(lent.call("units", &longer), err(11, 7, 0), "{more}");
        assert_eq!(lent, one_at_a_time(&before, &run), "{more}");
        assert_eq!(lent.call("units", &run), err(11, 1, 0), "{more}");
        assert_eq!(lent.call("units", &[]), Ok(()), "{more}");
    }
}

#[test]
fn lists_that_end_in_mid_run() {
    let (before, run) = begun_small();
    let short = [("numbers", 3), ("homes", 3), ("rows", 24), ("rows", 31)];
    for (name, length) in short {
        for fields in [vec![], vec![(4, 2, 1, 5)]] {
            let mut lent = before.clone();
            let long = lent.list(name).lent;
            lent.list_mut(name).lent = length;
            assert_eq!(lent.call("units", &with(&run, &fields)), err(12, 4, 0), "{name} {length}");
            lent.list_mut(name).lent = long;
            assert_eq!(lent, one_at_a_time(&before, &run[..372 * 3]), "{name} {length}");
            assert_eq!(lent.call("units", &run[372 * 3..]), Ok(()), "{name} {length}");
        }
        // A record before it is told first.
        let mut lent = before.clone();
        lent.list_mut(name).lent = length;
        assert_eq!(lent.call("units", &with(&run, &[(3, 2, 1, 5)])), err(81, 3, 0), "{name} {length}");
    }
}

/// Region 1's lent numbers are read at the first record that names it, the fourth: three units are taken before.
#[test]
fn lent_numbers_out_of_range_in_mid_run() {
    let (before, run) = begun_small();
    let run = with(&run, &[(4, 2, 1, 1)]);
    let limits = [
        ("sums", 150, 45_000_000, 45_000_001),
        ("sums", 299, -45_000_000, -45_000_001),
        ("measures", 75, 15_000_001, 15_000_002),
        ("measures", 149, -5_000_000, -5_000_001),
    ];
    for (name, place, last, beyond) in limits {
        let mut lent = before.clone();
        lent.put(name, place, &[beyond]);
        assert_eq!(lent.call("units", &run), err(11, 4, 0), "{name} {place}");
        assert_eq!(words_of(&lent), [6, 6, 9, 4, 10_000, 10, 20, 7], "{name} {place}");
        lent.put(name, place, &[last]);
        assert_eq!(lent.call("units", &run[372 * 3..]), Ok(()), "{name} {place}");
        // No record of the run names region 2.
        let mut lent = before.clone();
        lent.put(name, 2 * place, &[beyond]);
        assert_eq!(lent.call("units", &run), Ok(()), "{name} {place}");
    }
}

#[test]
fn a_run_is_its_units_one_at_a_time() {
    for (seed, units) in [0, 1, 5, 7, 13, 76, 477, 509, 511, 512].into_iter().enumerate() {
        let (class, _) = CLASSES[2 * seed];
        let book = make(seed as u64, class, Some(units)).expect("a class");
        let (before, run) = begun(&book);
        let singly = one_at_a_time(&before, &run);
        let mut lent = before.clone();
        assert_eq!(lent.call("units", &run), Ok(()), "{class} {units}");
        assert_eq!(lent, singly, "{class} {units}");
        // In two runs, of 3/7 and the rest.
        let mut lent = before.clone();
        let (first, second) = run.split_at(372 * (units * 3 / 7));
        assert_eq!(lent.call("units", first), Ok(()), "{class} {units}");
        assert_eq!(lent.call("units", second), Ok(()), "{class} {units}");
        assert_eq!(lent, singly, "{class} {units}");
    }
}

fn text(out: Vec<u8>) -> String {
    String::from_utf8(out).expect("a script is text")
}

/// What the script of `places` replies is what it is meant to: every length is taken, every refusal is met at every place.
#[test]
fn scripts_have_every_length_and_every_place() {
    let mut out = Vec::new();
    let mut script = Script::new(2026, true, &mut out);
    script.runs();
    let mut places: BTreeMap<u8, BTreeSet<usize>> = BTreeMap::new();
    for (meant, reply) in &script.meant {
        assert_eq!(meant, reply);
        if let Err(refusal) = reply {
            places.entry(refusal.number).or_default().insert(refusal.place);
        }
    }
    let every: BTreeSet<usize> = (1..=512).collect();
    assert_eq!(places.keys().copied().collect::<Vec<_>>(), [1, 9, 11, 12, 16, 81, 82, 83, 84]);
    assert_eq!(places.remove(&1), Some(BTreeSet::from([0])));
    // Past the 512 that a book may announce.
    assert_eq!(places.get_mut(&11).map(|places| places.remove(&513)), Some(true));
    assert!(places.values().all(|places| *places == every), "{places:?}");
    let out = text(out);
    for length in 0..=512 {
        assert!(out.contains(&format!("recall\ncall units 0:{}\n", 372 * length)), "{length}");
    }
}

/// What single calls reply and leave where a run is handed in, said of the run.
fn by_single_calls(lent: &mut Lent, run: &[u8]) -> Step {
    if run.len() % 372 != 0 {
        return err(1, 0, 0);
    }
    for place in 1..=run.len() / 372 {
        if let Err(refusal) = lent.call("unit", &run[372 * (place - 1)..372 * place]) {
            return err(refusal.number, place, refusal.t);
        }
    }
    Ok(())
}

/// Random runs are what single calls make of them, and meet every refusal in mid-run, at many places and with many t.
#[test]
fn random_runs() {
    let mut out = Vec::new();
    Script::new(2026, true, &mut out).write(10_000);
    let mut caller = Caller::default();
    let mut met: BTreeMap<u8, BTreeSet<Refusal>> = BTreeMap::new();
    for line in text(out).lines() {
        let Some(word) = line.strip_prefix("call units ") else {
            caller.line(line);
            continue;
        };
        let mut singly = caller.lent.clone();
        let reply = by_single_calls(&mut singly, &hex_bytes(word).expect("bytes"));
        assert_eq!(caller.line(line), Some(call_line(&singly, "units", reply)));
        assert!(caller.lent == singly);
        if let Err(refusal) = reply {
            met.entry(refusal.number).or_default().insert(refusal);
        }
    }
    for number in [9, 11, 12, 16, 81, 82, 83, 84] {
        let places: BTreeSet<usize> = met[&number].iter().map(|refusal| refusal.place).collect();
        assert!(places.len() >= 5, "{number}: {places:?}");
    }
    let ts: BTreeSet<usize> = met[&84].iter().map(|refusal| refusal.t).collect();
    assert!(ts.len() > 40, "{ts:?}");
    assert_eq!(met[&1], BTreeSet::from([Refusal::of(1)]));
}
