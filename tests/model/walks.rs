//! All walks of a small graph, and demand 3 checked on them: "Take an
//! accepted request of K hops, M arcs and C cells a node, and any walk from
//! the source to a camp with h arcs, h at most i, i at most K."

use std::collections::BTreeMap;

use super::back::{read_back, ReadBack};
use super::fences::{position, Ratio};
use super::request::{arc, shape, Request, Shape};
use super::rounds::{build, EMPTY};

/// A walk from the source: "Walks may repeat nodes and arcs. The empty walk
/// from the source to itself counts."
#[derive(Clone, Debug, PartialEq, Eq)]
pub struct Walk {
    pub node: u32,
    pub arcs: Vec<u32>,
    pub costs: Vec<u64>,
}

/// What was looked at in a request: its walks and its filled labels.
pub struct Seen {
    pub walks: usize,
    pub labels: usize,
}

fn empty_walk(request: &Request) -> Walk {
    let costs = vec![0; request.criteria as usize];
    Walk {
        node: request.source,
        arcs: Vec::new(),
        costs,
    }
}

/// The walk made longer by arc `a`, where that leaves from its node.
fn longer(walk: &Walk, arcs: &[u32], shape: &Shape, a: u32) -> Option<Walk> {
    let arc = arc(arcs, shape.words, a as usize);
    if arc.tail != walk.node {
        return None;
    }
    let mut next = walk.clone();
    next.node = arc.head;
    next.arcs.push(a);
    for (sum, &cost) in next.costs.iter_mut().zip(arc.costs) {
        *sum += u64::from(cost);
    }
    Some(next)
}

/// Every walk of at most `most` arcs from the source.
pub fn walks(request: &Request, arcs: &[u32], shape: &Shape, most: u32) -> Vec<Walk> {
    let mut all = vec![empty_walk(request)];
    let mut last = all.clone();
    for _ in 0..most {
        let mut next = Vec::new();
        for walk in &last {
            for a in 0..shape.arcs as u32 {
                next.extend(longer(walk, arcs, shape, a));
            }
        }
        all.extend(next.iter().cloned());
        last = next;
    }
    all
}

/// The arcs followed from the source, where each leaves from the head of the
/// one before.
pub fn follow(request: &Request, arcs: &[u32], shape: &Shape, route: &[u32]) -> Option<Walk> {
    let mut walk = empty_walk(request);
    for &a in route {
        walk = longer(&walk, arcs, shape, a)?;
    }
    Some(walk)
}

/// The filled labels of a layer and node: cell and words.
pub fn filled<'a>(
    request: &Request,
    shape: &Shape,
    labels: &'a [u32],
    layer: u32,
    node: u32,
) -> Vec<(u32, &'a [u32])> {
    let mut found = Vec::new();
    for cell in 0..shape.cells {
        let start = shape.label_start(request.nodes, layer, node, cell);
        let own = &labels[start..start + shape.words];
        if own[request.criteria as usize] != EMPTY {
            found.push((cell as u32, own));
        }
    }
    found
}

/// "whose every other cost, times q^h, is at most (p+q)^h times the walk's"
fn within(ratio: Ratio, h: u32, cost: u64, walked: u64) -> bool {
    let power = |base: u32| u128::from(base).checked_pow(h);
    let left = power(ratio.q).and_then(|f| f.checked_mul(u128::from(cost)));
    let right = power(ratio.p + ratio.q).and_then(|f| f.checked_mul(u128::from(walked)));
    left.expect("a small walk") <= right.expect("a small walk")
}

/// Whether a label covers a walk: "whose last cost is no greater and whose
/// every other cost" is within its ratio.
fn covers(request: &Request, label: &[u32], walk: &Walk) -> bool {
    let last = request.criteria as usize - 1;
    let h = walk.arcs.len() as u32;
    let others =
        (0..last).all(|k| within(request.ratios[k], h, u64::from(label[k]), walk.costs[k]));
    u64::from(label[last]) <= walk.costs[last] && others
}

/// "with p at least 1, each is at most 1 + (bits of the ladder's top) × (q/p
/// rounded up)"
pub fn bucket_bound(ratio: Ratio, top: u64) -> u64 {
    let bits = u64::from(u64::BITS - top.leading_zeros());
    1 + bits * u64::from(ratio.q.div_ceil(ratio.p))
}

/// The built labels of an accepted request, and its tries.
pub fn table(request: &Request, arcs: &[u32], shape: &Shape) -> (Vec<u32>, u64) {
    let mut ladders = vec![0; shape.ladder_words()];
    let mut labels = vec![0; shape.label_words()];
    let tries = build(request, arcs, &mut ladders, &mut labels).expect("an accepted request");
    (labels, tries)
}

/// Demand 3 on one accepted request, by all its walks.
pub fn demand_three(request: &Request, arcs: &[u32]) -> Seen {
    let shape = shape(request, arcs).expect("an accepted request");
    let (labels, tries) = table(request, arcs, &shape);
    let told = || format!("{request:?} {arcs:?}");
    let all = walks(request, arcs, &shape, request.hops);
    for layer in 0..=request.hops {
        let by_node: Vec<_> = (0..request.nodes)
            .map(|v| filled(request, &shape, &labels, layer, v))
            .collect();
        for walk in all.iter().filter(|walk| walk.arcs.len() <= layer as usize) {
            let at_camp = &by_node[walk.node as usize];
            let covered = at_camp
                .iter()
                .any(|(_, label)| covers(request, label, walk));
            assert!(
                covered,
                "layer {layer} does not cover {walk:?} of {}",
                told()
            );
        }
    }
    let seen = every_label_reads_back(request, arcs, &shape, &labels);
    // "The reported tries are [...] at most K × M × C."
    let most = u64::from(request.hops) * shape.arcs as u64 * shape.cells;
    assert!(tries <= most, "{tries} tries of {}", told());
    // "C is the product of the bucket counts".
    assert_eq!(shape.cells, shape.buckets.iter().product::<u64>());
    for k in 0..request.criteria as usize - 1 {
        let ratio = request.ratios[k];
        assert_eq!(shape.buckets[k], position(ratio, shape.tops[k]) + 1);
        assert!(ratio.p == 0 || shape.buckets[k] <= bucket_bound(ratio, shape.tops[k]));
    }
    Seen {
        walks: all.len(),
        labels: seen,
    }
}

/// "Every label reads back as a walk from the source, at most i arcs long,
/// with exactly those sums." And it lies in the cell of its costs. Answers
/// how many labels are filled.
pub fn every_label_reads_back(
    request: &Request,
    arcs: &[u32],
    shape: &Shape,
    labels: &[u32],
) -> usize {
    let d = request.criteria as usize;
    let mut seen = 0;
    for layer in 0..=request.hops {
        for node in 0..request.nodes {
            for (cell, label) in filled(request, shape, labels, layer, node) {
                seen += 1;
                let mut route = vec![u32::MAX; request.hops as usize];
                let answer = read_back(request, arcs, labels, layer, node, cell, &mut route);
                let ReadBack::Route { arcs: count, costs } = answer else {
                    panic!("layer {layer} node {node} cell {cell}: {answer:?} of {request:?}");
                };
                assert_eq!(costs, label[..d]);
                assert!(count <= layer);
                let (own, rest) = route.split_at(count as usize);
                assert!(rest.iter().all(|&word| word == u32::MAX));
                let walk = follow(request, arcs, shape, own).expect("a walk");
                assert_eq!(walk.node, node);
                assert!(walk
                    .costs
                    .iter()
                    .zip(&costs)
                    .all(|(&w, &c)| w == u64::from(c)));
                let positions: Vec<u64> = (0..d - 1)
                    .map(|k| position(request.ratios[k], walk.costs[k]))
                    .collect();
                assert_eq!(u64::from(cell), shape.cell(&positions));
            }
        }
    }
    seen
}

/// "With p = 0 each cost is its own bucket": then layer i holds, at each
/// node, exactly the other costs of the walks of at most i arcs, each with
/// the least last cost.
pub fn exact_cover(request: &Request, arcs: &[u32]) {
    let shape = shape(request, arcs).expect("an accepted request");
    let (labels, _) = table(request, arcs, &shape);
    let last = request.criteria as usize - 1;
    let all = walks(request, arcs, &shape, request.hops);
    for layer in 0..=request.hops {
        let mut least: BTreeMap<(u32, Vec<u64>), u64> = BTreeMap::new();
        for walk in all.iter().filter(|walk| walk.arcs.len() <= layer as usize) {
            let held = least
                .entry((walk.node, walk.costs[..last].to_vec()))
                .or_insert(u64::MAX);
            *held = (*held).min(walk.costs[last]);
        }
        let mut found = BTreeMap::new();
        for node in 0..request.nodes {
            for (_, label) in filled(request, &shape, &labels, layer, node) {
                let others = label[..last].iter().map(|&cost| u64::from(cost)).collect();
                found.insert((node, others), u64::from(label[last]));
            }
        }
        assert_eq!(found, least, "layer {layer} of {request:?} {arcs:?}");
    }
}
