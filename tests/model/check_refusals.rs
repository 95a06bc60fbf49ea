//! Rows 2 to 10 and 17, each at its limit and past it, and their order.

use super::model::fences::Ratio;
use super::model::request::{refusal, shape, Request, MOST_LABELS};

const HALF: Ratio = Ratio { p: 1, q: 2 };
const EXACT: Ratio = Ratio { p: 0, q: 1 };

fn base(criteria: u32) -> Request {
    Request {
        nodes: 4,
        criteria,
        source: 3,
        hops: 2,
        ratios: [HALF, HALF],
    }
}

fn refused(request: Request, arcs: &[u32], number: u32, place: usize) {
    assert_eq!(
        shape(&request, arcs),
        Err(refusal(number, place)),
        "{request:?}"
    );
}

fn taken(request: Request, arcs: &[u32]) {
    assert!(shape(&request, arcs).is_ok(), "{request:?}");
}

/// Each row at its limits, in order.
fn rows() {
    let b = base(3);
    for (nodes, right) in [
        (0, false),
        (4, true),
        (64, true),
        (65, false),
        (u32::MAX, false),
    ] {
        let own = Request { nodes, ..b };
        if right {
            taken(own, &[])
        } else {
            refused(own, &[], 2, 0)
        }
    }
    for criteria in [0, 1, 4, u32::MAX] {
        refused(Request { criteria, ..b }, &[], 3, 0);
    }
    refused(Request { source: 4, ..b }, &[], 4, 0);
    refused(Request { hops: 64, ..b }, &[], 5, 0);
    for (p, q) in [
        (0, 0),
        (1, 0),
        (2, 1),
        (0, 1_001),
        (1_001, 1_001),
        (1_001, 1_000),
    ] {
        let bad = Ratio { p, q };
        refused(
            Request {
                ratios: [bad, bad],
                ..b
            },
            &[],
            6,
            1,
        );
        refused(
            Request {
                ratios: [HALF, bad],
                ..b
            },
            &[],
            6,
            2,
        );
        // "ratio of a criterion in use": with d = 2 the second is not.
        taken(
            Request {
                ratios: [HALF, bad],
                ..base(2)
            },
            &[],
        );
    }
    taken(
        Request {
            ratios: [Ratio { p: 1_000, q: 1_000 }, EXACT],
            ..b
        },
        &[],
    );
    for short in [1, 2, 3, 4, 6] {
        refused(b, &vec![0; short], 7, 0);
    }
    taken(b, &[0, 1, 0, 0, 0].repeat(512));
    refused(b, &[0, 1, 0, 0, 0].repeat(513), 7, 0);
    refused(b, &vec![u32::MAX; 5 * 513], 7, 0);
    taken(base(2), &[3, 2, 0, 1_000_000]);
    refused(base(2), &[4, 0, 0, 0], 8, 0);
    refused(base(2), &[0, 1, 0, 0, 0, 4, 0, 0, 4, 0, 0, 0], 8, 1);
    refused(base(2), &[0, 1, 0, 0, 0, 1, 0, 1_000_001], 8, 1);
    refused(base(2), &[3, 3, 0, 1_000_000], 17, 0);
    refused(base(2), &[0, 1, 0, 0, 2, 2, 0, 0, 4, 0, 0, 0], 17, 1);
    refused(base(2), &[4, 4, 0, 0], 8, 0);
    refused(base(2), &[2, 2, 1_000_001, 0], 17, 0);
    let exact = Request {
        ratios: [EXACT, EXACT],
        hops: 1,
        nodes: 2,
        source: 0,
        ..b
    };
    refused(exact, &[0, 1, 4_096, 4_096, 0], 9, 1);
    refused(exact, &[0, 1, 0, 4_096, 0], 9, 2);
    // The last criterion has no ladder.
    taken(exact, &[0, 1, 0, 4_095, 1_000_000]);
    // 2 × 2 × 4,096 × 64 is 1,048,576; one more bucket is past it.
    let full = shape(&exact, &[0, 1, 4_095, 63, 0]).expect("at the limit");
    assert_eq!(full.labels, MOST_LABELS);
    refused(exact, &[0, 1, 4_095, 64, 0], 10, 0);
}

/// "Lowest number first", and 17 where 8 is: each fault hides all the later
/// ones.
fn order() {
    let bad = Ratio { p: 2, q: 1 };
    let mut own = Request {
        nodes: 0,
        criteria: 5,
        source: 9,
        hops: 64,
        ratios: [bad, bad],
    };
    refused(own, &[9; 7], 2, 0);
    own.nodes = 2;
    refused(own, &[9; 7], 3, 0);
    own.criteria = 3;
    refused(own, &[9; 7], 4, 0);
    own.source = 0;
    refused(own, &[9; 7], 5, 0);
    own.hops = 1;
    refused(own, &[9; 7], 6, 1);
    own.ratios[0] = EXACT;
    refused(own, &[9; 7], 6, 2);
    own.ratios[1] = EXACT;
    refused(own, &[9; 7], 7, 0);
    refused(own, &[9; 10], 8, 0);
    refused(own, &[0, 1, 4_095, 4_095, 0, 0, 2, 9_999, 9_999, 0], 8, 1);
    refused(own, &[0, 1, 9_999, 9_999, 0, 1, 1, 0, 0, 0], 17, 1);
    refused(own, &[0, 1, 9_999, 9_999, 0], 9, 1);
    refused(own, &[0, 1, 4_095, 9_999, 0], 9, 2);
    refused(own, &[0, 1, 4_095, 4_095, 0], 10, 0);
}

/// Rows 2 to 10 and 17.
pub fn refusals() -> String {
    rows();
    order();
    "rows 2 to 10 and 17 at their limits and in their order".to_string()
}
