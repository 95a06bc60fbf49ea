//! Generated requests. Everything generated is made from the generator alone,
//! so a seed gives the same on every machine.

use super::fences::Ratio;
use super::listing::LIST_LABEL_WORDS;
use super::request::{shape, Request};
use super::rng::Rng;

pub use super::damage::{damage_labels, damage_sheet};
pub use super::gen_sheets::{edge_sheet, sheet, sized_sheet};

/// Rounds of a generated request look at no more candidates than this, to
/// keep a run short: K × M × C is at most so large.
const MOST_TRIES: u64 = 2_000_000;

/// A ratio in range, the plain ones often.
fn ratio(rng: &mut Rng) -> Ratio {
    let plain = [
        (0, 1),
        (1, 1),
        (1, 2),
        (1, 10),
        (1, 3),
        (2, 3),
        (1_000, 1_000),
        (1, 1_000),
    ];
    if rng.one_in(2) {
        let (p, q) = rng.pick(&plain);
        return Ratio { p, q };
    }
    let most = rng.pick(&[5, 30, 1_000]);
    let q = rng.between(1, most);
    Ratio {
        p: rng.between(0, q),
        q,
    }
}

/// Bounds of a generated request.
struct Bounds {
    nodes: u32,
    hops: u32,
    arcs: usize,
    label_words: usize,
}

/// An accepted request within the bounds.
fn accepted(rng: &mut Rng, bounds: &Bounds) -> (Request, Vec<u32>) {
    loop {
        let criteria = rng.between(2, 3);
        let nodes = if rng.one_in(16) {
            1
        } else {
            rng.between(2, bounds.nodes)
        };
        let request = Request {
            nodes,
            criteria,
            source: rng.between(0, nodes - 1),
            hops: rng.between(0, bounds.hops),
            ratios: [ratio(rng), ratio(rng)],
        };
        let scale = rng.pick(&[0, 1, 3, 10, 50, 1_000, 50_000, 1_000_000]);
        // Every other time few last costs, so that many labels tie in theirs.
        let last_scale = if rng.one_in(2) {
            scale
        } else {
            rng.pick(&[0, 1, 3])
        };
        let mut arcs = Vec::new();
        // Most arcs leave from a node that an earlier arc or the source gives,
        // so that walks grow long; each leads to another node, so one node
        // alone has none.
        let mut reached = vec![request.source];
        let most_arcs = if nodes > 1 { bounds.arcs } else { 0 };
        for _ in 0..rng.below(most_arcs + 1) {
            let any = rng.one_in(4);
            let tail = if any {
                rng.between(0, nodes - 1)
            } else {
                rng.pick(&reached)
            };
            let head = (tail + rng.between(1, nodes - 1)) % nodes;
            reached.push(head);
            arcs.extend([tail, head]);
            for k in 1..=criteria {
                let most = if k < criteria { scale } else { last_scale };
                arcs.push(if rng.one_in(8) {
                    0
                } else {
                    rng.between(0, most)
                });
            }
        }
        if let Ok(shape) = shape(&request, &arcs) {
            let tries = u64::from(request.hops) * shape.arcs as u64 * shape.cells;
            if shape.label_words() <= bounds.label_words && tries <= MOST_TRIES {
                return (request, arcs);
            }
        }
    }
}

/// An accepted request on a graph so small that all its walks can be listed,
/// with a table of at most 12,288 words.
pub fn small_request(rng: &mut Rng) -> (Request, Vec<u32>) {
    let label_words = LIST_LABEL_WORDS;
    accepted(
        rng,
        &Bounds {
            nodes: 5,
            hops: 5,
            arcs: 9,
            label_words,
        },
    )
}

/// An accepted request of any size up to the limits.
pub fn large_request(rng: &mut Rng) -> (Request, Vec<u32>) {
    accepted(
        rng,
        &Bounds {
            nodes: 64,
            hops: 63,
            arcs: 512,
            label_words: usize::MAX,
        },
    )
}

/// An accepted request of middling size, with a table of at most 12,288 words.
pub fn listed_request(rng: &mut Rng) -> (Request, Vec<u32>) {
    let label_words = LIST_LABEL_WORDS;
    accepted(
        rng,
        &Bounds {
            nodes: 16,
            hops: 20,
            arcs: 60,
            label_words,
        },
    )
}

/// A typing slip, one time in sixteen: one of the arcs leads from its tail to
/// its tail. So rare, the rest is judged by what it was made for.
pub fn slip(rng: &mut Rng, request: &Request, arcs: &mut [u32]) {
    let words = request.criteria.clamp(2, 3) as usize + 2;
    let count = arcs.len() / words;
    if rng.one_in(16) && count > 0 {
        let arc = rng.below(count) * words;
        arcs[arc + 1] = arcs[arc];
    }
}

/// A request with one to three values at a limit of "Sizes", just past it, as
/// large as a word, or any word; accepted or refused.
pub fn edge_request(rng: &mut Rng) -> (Request, Vec<u32>) {
    let (mut request, mut arcs) = small_request(rng);
    for _ in 0..rng.between(1, 3) {
        edge(rng, &mut request, &mut arcs);
    }
    slip(rng, &request, &mut arcs);
    (request, arcs)
}

/// One value put at a limit or past it.
fn edge(rng: &mut Rng, request: &mut Request, arcs: &mut Vec<u32>) {
    let words = request.criteria.clamp(2, 3) as usize + 2;
    let arc = rng.below((arcs.len() / words).max(1)) * words;
    let many = if rng.one_in(2) { u32::MAX } else { rng.word() };
    match rng.below(12) {
        0 => request.nodes = rng.pick(&[0, 1, 63, 64, 65, many]),
        1 => request.criteria = rng.pick(&[0, 1, 2, 3, 4, many]),
        2 => {
            let below = request.nodes.wrapping_sub(1);
            request.source = rng.pick(&[0, below, request.nodes, many]);
        }
        3 => request.hops = rng.pick(&[0, 1, 62, 63, 64, many]),
        4 | 5 => {
            let (p, q) = rng.pick(&[
                (0, 0),
                (0, 1),
                (1, 0),
                (1, 1),
                (2, 1),
                (0, 1_000),
                (1, 1_000),
                (999, 1_000),
                (1_000, 1_000),
                (1_001, 1_000),
                (0, 1_001),
                (1_000, 1_001),
                (many, many),
                (0, many),
                (many, 1),
            ]);
            request.ratios[rng.below(2)] = Ratio { p, q };
        }
        6 => {
            for _ in 0..rng.between(1, 4) {
                arcs.push(0);
            }
        }
        7 => arcs.truncate(arcs.len() - rng.below(arcs.len().min(5) + 1)),
        8 => {
            // Arcs from node 0 to node 1, of costs 0.
            let count = rng.pick(&[511, 512, 513]);
            arcs.truncate(arcs.len() / words * words);
            while arcs.len() < count * words {
                arcs.extend([0, 1]);
                arcs.extend(vec![0; words - 2]);
            }
            arcs.truncate(count * words);
        }
        9 if arc + words <= arcs.len() => {
            let below = request.nodes.wrapping_sub(1);
            arcs[arc + rng.below(2)] = rng.pick(&[0, below, request.nodes, many]);
        }
        10 if arc + words <= arcs.len() => {
            let cost = rng.pick(&[0, 999_999, 1_000_000, 1_000_001, many]);
            arcs[arc + 2 + rng.below(words - 2)] = cost;
        }
        _ => (*request, *arcs) = limit_of_a_table(rng),
    }
}

/// A table at the limit of row 9 or 10, or one past it.
fn limit_of_a_table(rng: &mut Rng) -> (Request, Vec<u32>) {
    let exact = Ratio { p: 0, q: 1 };
    let past = rng.between(0, 1);
    let request = |nodes, criteria, hops| Request {
        nodes,
        criteria,
        source: 0,
        hops,
        ratios: [exact, exact],
    };
    match rng.below(5) {
        // B 4,096 or 4,097: K 1, then K 63 and a top of 63 × 65.
        0 => (request(2, 2, 1), vec![0, 1, 4_095 + past, 7]),
        1 => (request(2, 3, 1), vec![0, 1, 0, 4_095 + past, 7]),
        2 => (request(2, 2, 63), vec![0, 1, 65 + past, 7]),
        // (K+1) × N × C: 2 × 64 × 4,096 × 2 and 4 × 64 × 64 × 64, both
        // 1,048,576.
        3 => (request(64, 3, 1), vec![0, 63, 4_095, 1 + past, 7]),
        _ => (request(64, 3, 3), vec![0, 63, 21, 21 + past, 7]),
    }
}

/// A request: small, middling or large, accepted but for a slip, or with edge
/// values.
pub fn request(rng: &mut Rng) -> (Request, Vec<u32>) {
    let (request, mut arcs) = match rng.below(8) {
        0..=2 => small_request(rng),
        3 | 4 => listed_request(rng),
        5 => large_request(rng),
        _ => return edge_request(rng),
    };
    slip(rng, &request, &mut arcs);
    (request, arcs)
}
