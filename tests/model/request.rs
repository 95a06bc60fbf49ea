//! The request, its sizes, and the checks of rows 2 to 10 and 17.

use super::fences::{bucket_count, Ratio};

/// "Nodes N 1 to 64."
pub const MOST_NODES: u32 = 64;
/// "Arcs M 0 to 512."
pub const MOST_ARCS: usize = 512;
/// "Hops K 0 to 63."
pub const MOST_HOPS: u32 = 63;
/// "Arc cost 0 to 1,000,000."
pub const MOST_COST: u32 = 1_000_000;
/// "Labels, (K+1) × N × C, at most 1,048,576."
pub const MOST_LABELS: u64 = 1_048_576;

/// What is asked, apart from the arcs. Every value is a word as the caller
/// gave it, in range or not.
#[derive(Clone, Copy, Debug, PartialEq, Eq)]
pub struct Request {
    /// N.
    pub nodes: u32,
    /// d.
    pub criteria: u32,
    pub source: u32,
    /// K.
    pub hops: u32,
    /// "a ratio for each criterion but the last"; with d = 2 the second one
    /// is not in use.
    pub ratios: [Ratio; 2],
}

/// An answer's numbers: 0, and the refusals' 1 to 17.
pub const NUMBERS: usize = 18;

/// "A refusal returns number and place; place is 0 where none is named."
#[derive(Clone, Copy, Debug, PartialEq, Eq)]
pub struct Refusal {
    pub number: u32,
    pub place: u32,
}

/// A refusal with its place.
pub fn refusal(number: u32, place: usize) -> Refusal {
    Refusal {
        number,
        place: place as u32,
    }
}

/// What an accepted request comes to.
#[derive(Clone, Debug, PartialEq, Eq)]
pub struct Shape {
    /// M.
    pub arcs: usize,
    /// d+2: "An arc is d+2 words", "A label is d+2 words".
    pub words: usize,
    /// T of each criterion but the last.
    pub tops: Vec<u64>,
    /// B of each criterion but the last.
    pub buckets: Vec<u64>,
    /// C: "the product of the B's of all criteria but the last".
    pub cells: u64,
    /// (K+1) × N × C.
    pub labels: u64,
}

impl Shape {
    /// Words of all the ladders, B+1 each.
    pub fn ladder_words(&self) -> usize {
        self.buckets.iter().map(|&b| b as usize + 1).sum()
    }

    /// Words of all the labels.
    pub fn label_words(&self) -> usize {
        self.labels as usize * self.words
    }

    /// "The label of layer i, node v, cell c starts at word
    /// ((i × N + v) × C + c) × (d+2)."
    pub fn label_start(&self, nodes: u32, layer: u32, node: u32, cell: u64) -> usize {
        let (n, i, v) = (u64::from(nodes), u64::from(layer), u64::from(node));
        (((i * n + v) * self.cells + cell) * self.words as u64) as usize
    }

    /// "A label's cell is j1 for d = 2 and j1 × B2 + j2 for d = 3."
    pub fn cell(&self, positions: &[u64]) -> u64 {
        if positions.len() == 1 {
            positions[0]
        } else {
            positions[0] * self.buckets[1] + positions[1]
        }
    }
}

/// "An arc is d+2 words: tail, head, costs."
#[derive(Clone, Copy, Debug, PartialEq, Eq)]
pub struct Arc<'a> {
    pub tail: u32,
    pub head: u32,
    pub costs: &'a [u32],
}

/// Arc `a` of a table of arcs of `words` words each.
pub fn arc(arcs: &[u32], words: usize, a: usize) -> Arc<'_> {
    let own = &arcs[a * words..(a + 1) * words];
    Arc {
        tail: own[0],
        head: own[1],
        costs: &own[2..],
    }
}

/// What an arc is refused with, if it is: "In each arc the node ranges are
/// weighed first, then this, then the costs" (document 02, request f).
fn fault(nodes: u32, arc: &Arc) -> Option<u32> {
    let faults = [
        // 8: "arc's node or cost out of range".
        (arc.tail.max(arc.head) >= nodes, 8),
        // 17: "No tracks from a camp to itself."
        (arc.tail == arc.head, 17),
        (arc.costs.iter().any(|&cost| cost > MOST_COST), 8),
    ];
    faults
        .iter()
        .find(|(holds, _)| *holds)
        .map(|(_, number)| *number)
}

/// Rows 2 to 10, "Lowest number first", 17 "weighed together with 8", or the
/// shape of an accepted request.
pub fn shape(request: &Request, arcs: &[u32]) -> Result<Shape, Refusal> {
    // 2: N.
    if request.nodes < 1 || request.nodes > MOST_NODES {
        return Err(refusal(2, 0));
    }
    // 3: d. "Criteria d 2 or 3."
    if request.criteria != 2 && request.criteria != 3 {
        return Err(refusal(3, 0));
    }
    // 4: "source not below N".
    if request.source >= request.nodes {
        return Err(refusal(4, 0));
    }
    // 5: K.
    if request.hops > MOST_HOPS {
        return Err(refusal(5, 0));
    }
    // 6: "ratio of a criterion in use", "first such criterion from 1".
    let in_use = request.criteria as usize - 1;
    for k in 0..in_use {
        if !request.ratios[k].in_range() {
            return Err(refusal(6, k + 1));
        }
    }
    // 7: "arc words not a multiple of d+2, or over 512 arcs".
    let words = request.criteria as usize + 2;
    if arcs.len() % words != 0 || arcs.len() / words > MOST_ARCS {
        return Err(refusal(7, 0));
    }
    // 8 and 17: "the first arc with any of these faults decides", from 0.
    let count = arcs.len() / words;
    for a in 0..count {
        if let Some(number) = fault(request.nodes, &arc(arcs, words, a)) {
            return Err(refusal(number, a));
        }
    }
    // 9: "B over 4,096", "first such criterion from 1". "A criterion's ladder
    // top T is K times its largest arc cost (0 with no arcs)."
    let mut tops = Vec::new();
    let mut buckets = Vec::new();
    for k in 0..in_use {
        let mut largest = 0;
        for a in 0..count {
            largest = largest.max(arc(arcs, words, a).costs[k]);
        }
        let top = u64::from(request.hops) * u64::from(largest);
        match bucket_count(request.ratios[k], top) {
            None => return Err(refusal(9, k + 1)),
            Some(b) => {
                tops.push(top);
                buckets.push(b);
            }
        }
    }
    // 10: "too many labels".
    let cells: u64 = buckets.iter().product();
    let labels = (u64::from(request.hops) + 1) * u64::from(request.nodes) * cells;
    if labels > MOST_LABELS {
        return Err(refusal(10, 0));
    }
    Ok(Shape {
        arcs: count,
        words,
        tops,
        buckets,
        cells,
        labels,
    })
}
