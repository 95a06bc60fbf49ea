//! The trials: sheets for the program `trials`, each after a line of four
//! digits that gives its length, and what the lister has to print for them,
//! one after another.

use super::model::damage::damage_sheet;
use super::model::gen_sheets::{edge_sheet, sheet, sized_sheet};
use super::model::listing::lister;
use super::model::rng::Rng;
use super::model::vectors;

/// Kept small, so that the stored files can be read: most sheets are at most
/// so long, and print at most so much.
const SHEET_BYTES: usize = 1_000;
const LISTING_BYTES: usize = 2_000;

/// "Numbers to check by hand", 11 to 13, as sheets; the printed listings are
/// the document's.
fn by_hand() -> Vec<(String, &'static str)> {
    let asked = |k: &str, ratio: &str| format!("tracks\t1\t2\nask\t0\t{k}\t{ratio}\n");
    let of_cost = |cost: &str, ratio: &str| {
        format!("tracks\t2\t2\narc\t0\t1\t{cost}\t0\nask\t0\t1\t{ratio}\n")
    };
    let one = "cover\t1\t0\nlabel\t0\t0\t0\t0\n";
    let placed = "cover\t2\t1\nlabel\t0\t0\t0\t0\nlabel\t1\t1000000\t0\t1\t0\n";
    vec![
        // 11. "Ratio 1/1 accepted; 2/1 and 0/0 refused 6. K 63 accepted, 64 refused 5."
        (asked("1", "1\t1"), one),
        (asked("1", "2\t1"), "refused\t6\t1\n"),
        (asked("1", "0\t0"), "refused\t6\t1\n"),
        (asked("63", "1\t1"), one),
        (asked("64", "1\t1"), "refused\t5\t0\n"),
        // 12. "Cost 1,000,000 passes check 8, 1,000,001 does not. Ratio 0/1, K 1: first cost 4,095 passes check 9,
        // 4,096 does not." A table of 2 × 2 × 4,096 labels has 65,536 words, more than the lister's 12,288.
        (of_cost("1000000", "1\t1"), placed),
        (of_cost("1000001", "1\t1"), "refused\t8\t0\n"),
        (of_cost("4095", "0\t1"), "refused\t13\t2\n"),
        (of_cost("4096", "0\t1"), "refused\t9\t1\n"),
        // 13. "Empty sheet: 1, place 1. Field `007`: 1. N 0 with K 64: 2."
        (String::new(), "refused\t1\t1\n"),
        ("tracks\t007\t2\nask\t0\t0\t0\t1\n".into(), "refused\t1\t1\n"),
        ("tracks\t7\t2\nask\t0\t007\t0\t1\n".into(), "refused\t1\t2\n"),
        ("tracks\t0\t2\nask\t0\t64\t1\t1\n".into(), "refused\t2\t0\n"),
    ]
}

/// A sheet from the maker whose size and listing are kept small.
fn small(rng: &mut Rng, make: impl Fn(&mut Rng) -> Vec<u8>) -> Vec<u8> {
    loop {
        let sheet = make(rng);
        if sheet.len() <= SHEET_BYTES && lister(&sheet).len() <= LISTING_BYTES {
            return sheet;
        }
    }
}

/// A sheet with one to three pieces of damage.
fn damaged(rng: &mut Rng) -> Vec<u8> {
    let mut sheet = sheet(rng);
    for _ in 0..=rng.below(3) {
        damage_sheet(rng, &mut sheet);
    }
    sheet
}

/// All sheets in order: by hand, the requests' vectors, at the limits of
/// length, then in form, at the limits of "Sizes", damaged.
pub fn sheets() -> Vec<Vec<u8>> {
    let mut sheets = Vec::new();
    for (sheet, listing) in by_hand().into_iter().chain(vectors::sheets()) {
        assert_eq!(lister(sheet.as_bytes()), listing.as_bytes(), "{sheet}");
        sheets.push(sheet.into_bytes());
    }
    let mut rng = Rng::new(11);
    for size in [8_191, 8_192, 8_193] {
        sheets.push(sized_sheet(&mut rng, size));
    }
    for _ in 0..100 {
        sheets.push(small(&mut rng, sheet));
        sheets.push(small(&mut rng, edge_sheet));
        sheets.push(small(&mut rng, damaged));
    }
    sheets
}

/// What the program reads.
pub fn input() -> Vec<u8> {
    let mut all = Vec::new();
    for sheet in sheets() {
        all.extend(format!("{:04}\n", sheet.len()).into_bytes());
        all.extend(sheet);
    }
    all
}

/// What it has to print.
pub fn output() -> Vec<u8> {
    sheets().iter().flat_map(|sheet| lister(sheet)).collect()
}
