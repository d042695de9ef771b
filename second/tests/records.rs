//! The line programs `share` and `records`.

use second::book::UNITS_AT;
use second::records::{record_line, share_line};
use second::sweep::put;
use second::worked::listing_book;
use second::write::to_bytes;

fn hex(bytes: &[u8]) -> String {
    bytes.iter().map(|byte| format!("{byte:02x}")).collect()
}

#[test]
fn share_lines() {
    assert_eq!(share_line("10 1 1 1"), "4 3 3 unplaced 0");
    assert_eq!(share_line("2 1 3"), "0 2 unplaced 0");
    assert_eq!(share_line("5 0 0"), "0 0 unplaced 5");
    assert_eq!(share_line("5"), "unplaced 5");
    assert_eq!(share_line("1000000000001 1"), "refused 5");
    assert_eq!(share_line("1 6010000000000000000 1"), "refused 5");
    assert_eq!(share_line("1 x"), "bad line");
    assert_eq!(share_line(""), "bad line");
    assert_eq!(share_line("-1 1"), "bad line");
}

#[test]
fn record_lines() {
    let bytes = to_bytes(&listing_book());
    assert_eq!(record_line(&format!("contents {}", hex(&bytes))), "2 1");
    assert_eq!(record_line(&format!("contents {}", hex(&bytes[..55]))), "refused 1 0");
    assert_eq!(record_line("settings 10270a1407000000"), "10000 10 20 7");
    assert_eq!(record_line("settings 00000a1407000000"), "refused 6 0");
    assert_eq!(record_line("settings -"), "refused 1 0");
    let frequency = record_line(&format!("frequency {} 0", hex(&bytes[64..])));
    let all_good = "1".repeat(75);
    assert_eq!(frequency, format!("0 0 {all_good} 0 100000 0 0 -1000 0 0 0"));
    assert_eq!(record_line(&format!("frequency {} 1", hex(&bytes[64..]))), "refused 71 0");
    let mut wrong = bytes[64..432].to_vec();
    put(&mut wrong, 68 + 4 * 74, 4, 44_999_999);
    assert_eq!(record_line(&format!("frequency {} 0", hex(&wrong))), "refused 74 75");
    let unit = hex(&bytes[UNITS_AT..UNITS_AT + 372]);
    let fields = record_line(&format!("unit {unit} -"));
    assert_eq!(fields, format!("1 0 0 10000 10000 0 0 -1000 0 0 0 {all_good} 0"));
    assert_eq!(record_line(&format!("unit {unit} 0")), fields);
    assert_eq!(record_line(&format!("unit {unit} 1")), "refused 9 0");
    let mut wrong = bytes[UNITS_AT..UNITS_AT + 372].to_vec();
    put(&mut wrong, 72 + 4 * 8, 4, 100_001);
    assert_eq!(record_line(&format!("unit {} 1", hex(&wrong))), "refused 84 9");
    put(&mut wrong, 69, 1, 0x0F);
    assert_eq!(record_line(&format!("unit {} 1", hex(&wrong))), "refused 83 0");
    let mut grouped = bytes[UNITS_AT..UNITS_AT + 372].to_vec();
    put(&mut grouped, 70, 2, 65_534);
    let fields = format!("1 0 0 10000 10000 0 0 -1000 0 0 0 {all_good} 65534");
    assert_eq!(record_line(&format!("unit {} 0", hex(&grouped))), fields);
    let last = &bytes[UNITS_AT + 2 * 372..];
    let requirement = "1 1 0 1200 1000 1000 333";
    assert_eq!(record_line(&format!("requirement {} -", hex(last))), requirement);
    assert_eq!(record_line(&format!("requirement {} 1", hex(last))), "refused 10 0");
    let mut longer = last.to_vec();
    longer.push(0);
    assert_eq!(record_line(&format!("requirement {} -", hex(&longer))), requirement);
    assert_eq!(record_line(&format!("requirement {} - last", hex(&longer))), "refused 4 0");
    put(&mut longer, 3, 1, 2);
    assert_eq!(record_line(&format!("requirement {} - last", hex(&longer))), "refused 10 0");
    assert_eq!(record_line("requirement zz -"), "bad line");
    assert_eq!(record_line("other 00"), "bad line");
}
