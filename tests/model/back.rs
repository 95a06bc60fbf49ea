//! Reading a label back as a route. "It trusts nothing in the label buffer."

use super::request::{arc, refusal, shape, Refusal, Request};
use super::rounds::{BY_ARC, EMPTY, KEPT, START};

/// "A read-back ends in one of three ways: a route, an empty cell (number
/// 15), or a refusal with its place."
#[derive(Clone, Debug, PartialEq, Eq)]
pub enum ReadBack {
    /// "A route returns its arc count and costs".
    Route {
        arcs: u32,
        costs: Vec<u32>,
    },
    Empty,
    Refused(Refusal),
}

/// A label as the buffer holds it.
struct Found<'a> {
    costs: &'a [u32],
    step: u32,
    from: u32,
}

/// "2 to 10 [17 with 8], 13 (1 labels, 2 route buffer under K words), 14, 15,
/// 16", else a route, whose arc numbers are written "in travel order; later
/// words of the route buffer stay".
pub fn read_back(
    request: &Request,
    arcs: &[u32],
    labels: &[u32],
    layer: u32,
    node: u32,
    cell: u32,
    route: &mut [u32],
) -> ReadBack {
    let shape = match shape(request, arcs) {
        Ok(shape) => shape,
        Err(refused) => return ReadBack::Refused(refused),
    };
    if labels.len() < shape.label_words() {
        return ReadBack::Refused(refusal(13, 1));
    }
    if route.len() < request.hops as usize {
        return ReadBack::Refused(refusal(13, 2));
    }
    // 14: "asked layer over K, node not below N or cell not below C".
    if layer > request.hops || node >= request.nodes || u64::from(cell) >= shape.cells {
        return ReadBack::Refused(refusal(14, 0));
    }
    let d = request.criteria as usize;
    let find = |i: u32, v: u32, c: u32| {
        let start = shape.label_start(request.nodes, i, v, u64::from(c));
        let own = &labels[start..start + d + 2];
        Found {
            costs: &own[..d],
            step: own[d],
            from: own[d + 1],
        }
    };
    let asked = find(layer, node, cell);
    // 15: "asked cell's step is 0". "Here a label is empty when its step is 0,
    // with any other words."
    if asked.step == EMPTY {
        return ReadBack::Empty;
    }
    // "Else the chain is broken, in the layer of the first label that fails,
    // going back from the asked one."
    let broken = |i: u32| ReadBack::Refused(refusal(16, i as usize));
    let (mut i, mut v, mut c) = (layer, node, cell);
    let mut backwards = Vec::new();
    loop {
        let label = find(i, v, c);
        if label.step == START {
            // "A start holds only in layer 0 at the source's cell 0 with costs
            // 0 and from 0."
            let at_start = i == 0 && v == request.source && c == 0;
            let bare = label.costs.iter().all(|&cost| cost == 0) && label.from == 0;
            if !at_start || !bare {
                return broken(i);
            }
            break;
        }
        // The label's own faults come first. "A kept label needs a layer
        // before", "An arc label needs a layer before".
        if i == 0 {
            return broken(i);
        }
        let (tail, from, added) = if label.step == KEPT {
            // "from 0 and the same costs there"
            if label.from != 0 {
                return broken(i);
            }
            (v, c, vec![0; d])
        } else {
            // "an arc below M with this head, a from below C"
            let a = (label.step - BY_ARC) as usize;
            if a >= shape.arcs || u64::from(label.from) >= shape.cells {
                return broken(i);
            }
            let arc = arc(arcs, shape.words, a);
            if arc.head != v {
                return broken(i);
            }
            backwards.push(a as u32);
            (arc.tail, label.from, arc.costs.to_vec())
        };
        // "with an empty one reached, the break is in that one's layer"
        let earlier = find(i - 1, tail, from);
        if earlier.step == EMPTY {
            return broken(i - 1);
        }
        // "costs equal to the earlier label's plus the arc's, summed without
        // wrap"; "A label whose costs disagree with the filled label reached
        // fails itself".
        for k in 0..d {
            if u64::from(label.costs[k]) != u64::from(earlier.costs[k]) + u64::from(added[k]) {
                return broken(i);
            }
        }
        // "The label reached must hold in turn".
        (i, v, c) = (i - 1, tail, from);
    }
    for (k, &a) in backwards.iter().rev().enumerate() {
        route[k] = a;
    }
    ReadBack::Route {
        arcs: backwards.len() as u32,
        costs: asked.costs.to_vec(),
    }
}
