//! The rounds, and the build that writes their layers.

use super::fences::{ladder, position_on};
use super::request::{arc, refusal, shape, Refusal, Request, Shape};

/// "Step 0: empty".
pub const EMPTY: u32 = 0;
/// "Step 1: start".
pub const START: u32 = 1;
/// "Step 2: kept from the layer before".
pub const KEPT: u32 = 2;
/// "Step 3+a: came by arc a (counted from 0)".
pub const BY_ARC: u32 = 3;

/// "A label is d+2 words: its costs, a step word, a from word." The third
/// cost is not in use with d = 2 and stays 0.
#[derive(Clone, Copy, Debug, PartialEq, Eq)]
pub struct Label {
    pub costs: [u64; 3],
    pub step: u32,
    pub from: u32,
}

/// "Step 0: empty, all words 0."
const EMPTY_LABEL: Label = Label {
    costs: [0; 3],
    step: EMPTY,
    from: 0,
};
/// "Step 1: start, costs 0, from 0."
const START_LABEL: Label = Label {
    costs: [0; 3],
    step: START,
    from: 0,
};

/// The labels of one layer; the label of node v, cell c is number v × C + c.
type Layer = Vec<Label>;

/// "Layer 0 is empty but for the source's cell 0, a start."
fn layer_zero(request: &Request, shape: &Shape) -> Layer {
    let mut layer = vec![EMPTY_LABEL; (u64::from(request.nodes) * shape.cells) as usize];
    layer[(u64::from(request.source) * shape.cells) as usize] = START_LABEL;
    layer
}

/// One round: the layer after `before`, and the round's tries.
fn round(
    request: &Request,
    arcs: &[u32],
    shape: &Shape,
    ladders: &[Vec<u64>],
    before: &Layer,
) -> (Layer, u64) {
    let d = request.criteria as usize;
    let cells = shape.cells as usize;
    let mut own = vec![EMPTY_LABEL; before.len()];
    let mut tries = 0;
    // "Round i (1 to K) first keeps every filled label of layer i−1": "same
    // node and cell, same costs, from 0".
    for at in 0..before.len() {
        if before[at].step != EMPTY {
            own[at] = Label {
                costs: before[at].costs,
                step: KEPT,
                from: 0,
            };
        }
    }
    // "Then arcs in table order, and for each arc the tail's filled cells of
    // layer i−1 in rising order".
    for a in 0..shape.arcs {
        let arc = arc(arcs, shape.words, a);
        for from in 0..cells {
            let earlier = before[arc.tail as usize * cells + from];
            if earlier.step == EMPTY {
                continue;
            }
            // "costs plus arc costs make a candidate, which is one try."
            tries += 1;
            let mut costs = earlier.costs;
            for k in 0..d {
                costs[k] += u64::from(arc.costs[k]);
            }
            let mut positions = [0; 2];
            for k in 0..d - 1 {
                positions[k] = position_on(&ladders[k], costs[k]);
            }
            let cell = shape.cell(&positions[..d - 1]) as usize;
            // "It goes to its cell at the head in layer i if that is empty or
            // holds a strictly larger last cost."
            let held = &mut own[arc.head as usize * cells + cell];
            if held.step == EMPTY || held.costs[d - 1] > costs[d - 1] {
                *held = Label {
                    costs,
                    step: BY_ARC + a as u32,
                    from: from as u32,
                };
            }
        }
    }
    (own, tries)
}

/// The build: "2 to 10 [17 with 8], 13 (1 ladders, 2 labels)", else the
/// ladders "stored one ladder after another", layers 0 to K, and "the sum of
/// all tries".
/// "what lies beyond the part an answer fills stays as it was".
pub fn build(
    request: &Request,
    arcs: &[u32],
    ladders: &mut [u32],
    labels: &mut [u32],
) -> Result<u64, Refusal> {
    let shape = shape(request, arcs)?;
    if ladders.len() < shape.ladder_words() {
        return Err(refusal(13, 1));
    }
    if labels.len() < shape.label_words() {
        return Err(refusal(13, 2));
    }
    let d = request.criteria as usize;
    let mut own_ladders = Vec::new();
    for k in 0..d - 1 {
        own_ladders.push(ladder(request.ratios[k], shape.buckets[k]));
    }
    let mut layers = vec![layer_zero(request, &shape)];
    let mut tries = 0;
    for i in 1..=request.hops as usize {
        let (own, more) = round(request, arcs, &shape, &own_ladders, &layers[i - 1]);
        layers.push(own);
        tries += more;
    }
    let mut at = 0;
    for fence in own_ladders.iter().flatten() {
        ladders[at] = word(*fence);
        at += 1;
    }
    let mut at = 0;
    for label in layers.iter().flatten() {
        for k in 0..d {
            labels[at + k] = word(label.costs[k]);
        }
        labels[at + d] = label.step;
        labels[at + d + 1] = label.from;
        at += d + 2;
    }
    Ok(tries)
}

/// "A word is 32 bits, unsigned."
fn word(value: u64) -> u32 {
    u32::try_from(value).expect("every fence and cost of an accepted request is a word")
}
