//! "Numbers to check by hand", 1 to 13, and the sheet printed in document 01.

use super::model::fences::{bucket_count, fence, position, Ratio};
use super::model::listing::lister;
use super::model::request::{refusal, shape, Request};
use super::model::sheet::{read, text};
use super::model::walks::{filled, table};

/// The sheet of "The lister", with tabs for its bars.
pub const SHEET: &str = "tracks\t4\t2
arc\t0\t1\t4\t5
arc\t0\t1\t6\t3
arc\t0\t2\t1\t9
arc\t1\t3\t2\t2
arc\t2\t3\t6\t1
ask\t0\t2\t1\t1
";

/// Its output, whole.
pub const LISTING: &str = "cover\t4\t8
label\t0\t0\t0\t0
label\t1\t6\t3\t1\t1
label\t2\t1\t9\t1\t2
label\t3\t8\t5\t2\t1\t3
";

const fn ratio(p: u32, q: u32) -> Ratio {
    Ratio { p, q }
}

fn fences(ratio: Ratio, count: u64) -> Vec<u64> {
    (0..count).map(|j| fence(ratio, j)).collect()
}

/// The request and arcs of the printed sheet.
pub fn example() -> (Request, Vec<u32>) {
    let mut arcs = vec![0; 20];
    let (request, words) = read(SHEET.as_bytes(), &mut arcs).expect("the printed sheet");
    assert_eq!(words, 20);
    (request, arcs)
}

/// A request of N nodes with d = 2, source 0.
fn plain(nodes: u32, hops: u32, first: Ratio) -> Request {
    Request {
        nodes,
        criteria: 2,
        source: 0,
        hops,
        ratios: [first, ratio(0, 1)],
    }
}

/// The costs of a node's filled labels in a layer, and the tries.
fn costs_at(request: &Request, arcs: &[u32], layer: u32, node: u32) -> (Vec<Vec<u32>>, u64) {
    let shape = shape(request, arcs).expect("an accepted request");
    let (labels, tries) = table(request, arcs, &shape);
    let found = filled(request, &shape, &labels, layer, node);
    (
        found.iter().map(|(_, label)| label[..2].to_vec()).collect(),
        tries,
    )
}

/// 1 to 4: fences and positions.
fn one_to_four() {
    assert_eq!(fences(ratio(1, 2), 9), [0, 1, 2, 4, 7, 11, 17, 26, 40]);
    assert_eq!(fences(ratio(1, 1), 6), [0, 1, 3, 7, 15, 31]);
    assert_eq!(fences(ratio(0, 1), 4), [0, 1, 2, 3]);
    let tenth = fences(ratio(1, 10), 20);
    let nine = tenth.iter().position(|&b| b == 9).expect("fence 9");
    assert_eq!(tenth[nine..nine + 4], [9, 10, 12, 14]);
    assert_eq!(
        [0, 6, 7, 12].map(|c| position(ratio(1, 1), c)),
        [0, 2, 3, 3]
    );
}

/// 5 and 6: the printed sheet.
fn five_and_six() {
    let (request, arcs) = example();
    let shape = shape(&request, &arcs).expect("an accepted request");
    assert_eq!((shape.tops[0], shape.buckets[0]), (12, 4));
    let (labels, tries) = table(&request, &arcs, &shape);
    // Layer 1, node 1, cell 2: ((1 × 4 + 1) × 4 + 2) × 4 = word 88.
    assert_eq!(shape.label_start(4, 1, 1, 2), 88);
    assert_eq!(labels[88..92], [6, 3, 4, 0]);
    // Layer 2, node 3, cell 3: ((2 × 4 + 3) × 4 + 3) × 4 = word 188.
    assert_eq!(shape.label_start(4, 2, 3, 3), 188);
    assert_eq!(labels[188..192], [8, 5, 6, 2]);
    assert_eq!(tries, 8);
}

/// 7: "The same at ratio 0/1".
fn seven() {
    let (mut request, arcs) = example();
    request.ratios[0] = ratio(0, 1);
    let shape = shape(&request, &arcs).expect("an accepted request");
    let (labels, tries) = table(&request, &arcs, &shape);
    let found = filled(&request, &shape, &labels, 2, 3);
    let cells_and_last: Vec<(u32, u32)> = found.iter().map(|(c, label)| (*c, label[1])).collect();
    assert_eq!(cells_and_last, [(6, 7), (7, 10), (8, 5)]);
    assert_eq!(tries, 9);
}

/// 8: "K = 0: one filled label, 0 tries."
fn eight() {
    let (mut request, arcs) = example();
    request.hops = 0;
    let shape = shape(&request, &arcs).expect("an accepted request");
    let (labels, tries) = table(&request, &arcs, &shape);
    assert_eq!((shape.tops[0], shape.buckets[0], shape.cells), (0, 1, 1));
    assert_eq!(labels, [0, 0, 1, 0, 0, 0, 0, 0, 0, 0, 0, 0, 0, 0, 0, 0]);
    assert_eq!(tries, 0);
}

/// 9 and 10: a track from a camp to itself ("Case 9 becomes a refusal"), and
/// an equal last cost.
fn nine_and_ten() {
    assert_eq!(
        shape(&plain(1, 2, ratio(1, 1)), &[0, 0, 1, 1]),
        Err(refusal(17, 0))
    );
    let (costs, _) = costs_at(&plain(2, 1, ratio(1, 1)), &[0, 1, 5, 5, 0, 1, 4, 5], 1, 1);
    assert_eq!(costs, [[5, 5]]);
}

/// 11 to 13: limits and forms.
fn eleven_to_thirteen() {
    assert!(shape(&plain(1, 1, ratio(1, 1)), &[]).is_ok());
    assert_eq!(shape(&plain(1, 1, ratio(2, 1)), &[]), Err(refusal(6, 1)));
    assert_eq!(shape(&plain(1, 1, ratio(0, 0)), &[]), Err(refusal(6, 1)));
    assert!(shape(&plain(1, 63, ratio(1, 1)), &[]).is_ok());
    assert_eq!(shape(&plain(1, 64, ratio(1, 1)), &[]), Err(refusal(5, 0)));

    assert!(shape(&plain(2, 1, ratio(1, 1)), &[0, 1, 1_000_000, 1_000_000]).is_ok());
    assert_eq!(
        shape(&plain(2, 1, ratio(1, 1)), &[0, 1, 1_000_001, 0]),
        Err(refusal(8, 0))
    );
    assert!(shape(&plain(2, 1, ratio(0, 1)), &[0, 1, 4_095, 0]).is_ok());
    assert_eq!(
        shape(&plain(2, 1, ratio(0, 1)), &[0, 1, 4_096, 0]),
        Err(refusal(9, 1))
    );
    assert_eq!(bucket_count(ratio(0, 1), 4_095), Some(4_096));
    assert_eq!(bucket_count(ratio(0, 1), 4_096), None);

    assert_eq!(read(b"", &mut []), Err(refusal(1, 1)));
    assert_eq!(
        read(b"tracks\t007\t2\nask\t0\t0\t0\t1\n", &mut []),
        Err(refusal(1, 1))
    );
    assert_eq!(
        read(b"tracks\t7\t2\nask\t0\t007\t0\t1\n", &mut []),
        Err(refusal(1, 2))
    );
    assert_eq!(shape(&plain(0, 64, ratio(1, 1)), &[]), Err(refusal(2, 0)));
    assert_eq!(
        lister(b"tracks\t0\t2\nask\t0\t64\t1\t1\n"),
        b"refused\t2\t0\n"
    );
}

/// All of the numbers.
pub fn numbers() -> String {
    one_to_four();
    five_and_six();
    seven();
    eight();
    nine_and_ten();
    eleven_to_thirteen();
    "numbers 1 to 13".to_string()
}

/// The printed sheet and its listing, byte for byte.
pub fn printed_sheet() -> String {
    let (request, arcs) = example();
    assert_eq!(
        arcs,
        [0, 1, 4, 5, 0, 1, 6, 3, 0, 2, 1, 9, 1, 3, 2, 2, 2, 3, 6, 1],
    );
    let asked = (
        request.nodes,
        request.criteria,
        request.source,
        request.hops,
    );
    assert_eq!(asked, (4, 2, 0, 2));
    assert_eq!(request.ratios, [ratio(1, 1), ratio(0, 1)]);
    assert_eq!(text(&request, &arcs), SHEET.as_bytes());
    assert_eq!(lister(SHEET.as_bytes()), LISTING.as_bytes());
    format!("{} bytes read, {} bytes listed", SHEET.len(), LISTING.len())
}
