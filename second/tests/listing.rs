//! Document 01's listing in full, and the same book with interval 8.

mod common;

use common::printed;
use second::listing::settle;
use second::worked::listing_book;
use second::write::to_bytes;

const LISTING: &str = "\
interval 7
requirement 1 raise 7500 100 333 667 0 0
unit 1 live 11250000000 1000000000 100 0 -223
unit 2 live -3375000000 -300000000 -30 -100 -222
residual live -7875000000 -700000000 -70 -233 -222
";

#[test]
fn the_listing_in_full() {
    let bytes = to_bytes(&listing_book());
    assert_eq!(bytes.len(), 2_672);
    assert_eq!(settle(&bytes), LISTING);
}

#[test]
fn the_same_book_with_interval_8() {
    let mut book = listing_book();
    book.settings.interval = 8;
    assert_eq!(printed(&book), LISTING.replace("interval 7", "interval 8"));
}

#[test]
fn a_refusal_is_printed_alone() {
    assert_eq!(settle(b""), "refused 1 0 0\n");
    let mut bytes = to_bytes(&listing_book());
    bytes.push(0);
    assert_eq!(settle(&bytes), "refused 4 1 0\n");
}

/// The bytes of the listing's table of contents, written out by hand from document 01.
#[test]
fn the_table_of_contents_byte_by_byte() {
    let by_hand: [u8; 56] = [
        0x46, 0x43, 0x46, 0x31, 4, 0, 0, 0, // mark, entries, zero
        1, 0, 1, 0, 56, 0, 0, 0, 8, 0, 0, 0, // settings at 56
        2, 0, 5, 0, 64, 0, 0, 0, 0x30, 0x07, 0, 0, // 5 × 368 = 1,840 at 64
        3, 0, 2, 0, 0x70, 0x07, 0, 0, 0xE8, 0x02, 0, 0, // 2 × 372 = 744 at 1,904
        4, 0, 1, 0, 0x58, 0x0A, 0, 0, 24, 0, 0, 0, // 24 at 2,648
    ];
    assert_eq!(to_bytes(&listing_book())[..56], by_hand);
}
