//! The read-back: labels of sound and of damaged tables.

use super::case::{about, packed, request_words, smaller_requests, Case};
use super::model::back::{read_back, ReadBack};
use super::model::damage::damage_labels;
use super::model::gen::{edge_request, listed_request, slip, small_request};
use super::model::request::{refusal, shape, Request};
use super::model::rng::Rng;
use super::model::vectors::loop_at_one;
use super::model::walks::table;
use super::pipe::{bytes_of, pattern_words, Asked, Outcome, OP_READ_BACK};

/// A label to read back from a buffer of any words, with room for a route.
#[derive(Clone)]
pub struct ReadLabel {
    request: Request,
    arcs: Vec<u32>,
    labels: Vec<u32>,
    /// Layer, node, cell.
    asked: [u32; 3],
    room: usize,
}

impl Case for ReadLabel {
    fn asked(&self) -> Asked {
        Asked {
            op: OP_READ_BACK,
            request: request_words(&self.request),
            label: self.asked,
            arcs: self.arcs.clone(),
            labels: self.labels.clone(),
            first: 4 * self.room,
            ..Asked::default()
        }
    }

    fn wanted(&self) -> Outcome {
        let mut outcome = Outcome::untouched(&self.asked());
        let mut route = pattern_words(self.room);
        let [layer, node, cell] = self.asked;
        let (request, arcs, labels) = (&self.request, &self.arcs, &self.labels);
        let answer = match read_back(request, arcs, labels, layer, node, cell, &mut route) {
            ReadBack::Route { arcs, costs } => {
                // With d = 2 the third cost is 0.
                outcome.costs = [0; 3];
                outcome.costs[..costs.len()].copy_from_slice(&costs);
                Ok(u64::from(arcs))
            }
            // "an empty cell (number 15)"
            ReadBack::Empty => Err(refusal(15, 0)),
            ReadBack::Refused(refused) => Err(refused),
        };
        outcome.answer = packed(answer);
        outcome.first = bytes_of(&route);
        outcome
    }

    fn smaller(&self) -> Vec<ReadLabel> {
        let mut found = Vec::new();
        for (request, arcs) in smaller_requests(&self.request, &self.arcs) {
            let own = self.clone();
            found.push(ReadLabel {
                request,
                arcs,
                ..own
            });
        }
        for k in 0..self.labels.len().min(2_000) {
            if self.labels[k] != 0 {
                let mut own = self.clone();
                own.labels[k] = 0;
                found.push(own);
            }
        }
        found
    }

    fn told(&self) -> String {
        let filled: Vec<(usize, u32)> = (0..self.labels.len())
            .filter(|&k| self.labels[k] != 0)
            .map(|k| (k, self.labels[k]))
            .collect();
        format!(
            "read back layer, node, cell {:?}, room for {} route words: {:?}, arc words {:?}, {} label words, 0 but (word, value) {filled:?}",
            self.asked, self.room, self.request, self.arcs, self.labels.len()
        )
    }
}

/// Request f, vector 10: with no label words, no route words and layer 9, a
/// track from a camp to itself is what is refused.
pub fn loop_to_read_back(_: &mut Rng, _: usize) -> ReadLabel {
    let (request, arcs) = loop_at_one();
    ReadLabel {
        request,
        arcs,
        labels: Vec::new(),
        asked: [9, 0, 0],
        room: 0,
    }
}

/// A label of a built table, of which half are damaged; now and then an asked
/// place out of range, a buffer too short, or a request that is refused.
pub fn to_read_back(rng: &mut Rng, turn: usize) -> ReadLabel {
    let (request, mut arcs) = match turn % 16 {
        0 => edge_request(rng),
        1 | 2 => listed_request(rng),
        _ => small_request(rng),
    };
    slip(rng, &request, &mut arcs);
    let mut labels = pattern_words(40);
    let mut asked = [0; 3];
    if let Ok(own) = shape(&request, &arcs) {
        if own.label_words() <= 20_000 {
            labels = table(&request, &arcs, &own).0;
            if turn % 2 == 0 {
                for _ in 0..rng.between(1, 4) {
                    damage_labels(rng, &mut labels, &request, &arcs, &own);
                }
            }
            // A filled label where a few looks find one, in a late layer.
            for _ in 0..20 {
                let layer = request.hops - rng.between(0, request.hops.min(2));
                let node = rng.between(0, request.nodes - 1);
                let cell = rng.below(own.cells as usize) as u32;
                asked = [layer, node, cell];
                let start = own.label_start(request.nodes, layer, node, u64::from(cell));
                if labels[start + own.words - 2] != 0 || rng.one_in(12) {
                    break;
                }
            }
            if rng.one_in(16) {
                let k = rng.below(3);
                let past = [request.hops + 1, request.nodes, own.cells as u32];
                asked[k] = rng.pick(&[past[k], u32::MAX]);
            }
            if rng.one_in(16) {
                let words = about(rng, labels.len());
                labels.resize(words, 7);
            }
        }
    }
    let room = if rng.one_in(4) {
        about(rng, request.hops.min(70) as usize)
    } else {
        request.hops.min(70) as usize
    };
    ReadLabel {
        request,
        arcs,
        labels,
        asked,
        room,
    }
}
