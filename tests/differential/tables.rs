//! The build: every word of the ladders and labels, the tries, the refusals.

use super::case::{about, packed, request_words, smaller_requests, Case};
use super::model::gen::{edge_request, large_request, listed_request, slip, small_request};
use super::model::request::{shape, Request};
use super::model::rng::Rng;
use super::model::rounds::build;
use super::pipe::{bytes_of, pattern_words, Asked, Outcome, OP_BUILD};

/// A request with its arcs, and room for so many words of ladders and labels.
#[derive(Clone)]
pub struct Build {
    request: Request,
    arcs: Vec<u32>,
    ladders: usize,
    labels: usize,
}

impl Case for Build {
    fn asked(&self) -> Asked {
        Asked {
            op: OP_BUILD,
            request: request_words(&self.request),
            arcs: self.arcs.clone(),
            first: 4 * self.ladders,
            second: 4 * self.labels,
            ..Asked::default()
        }
    }

    fn wanted(&self) -> Outcome {
        let mut outcome = Outcome::untouched(&self.asked());
        let mut ladders = pattern_words(self.ladders);
        let mut labels = pattern_words(self.labels);
        outcome.answer = packed(build(&self.request, &self.arcs, &mut ladders, &mut labels));
        outcome.first = bytes_of(&ladders);
        outcome.second = bytes_of(&labels);
        outcome
    }

    fn smaller(&self) -> Vec<Build> {
        let mut found = Vec::new();
        for (request, arcs) in smaller_requests(&self.request, &self.arcs) {
            // Rooms that were exact stay exact.
            let (mut ladders, mut labels) = (self.ladders, self.labels);
            if let Ok(own) = shape(&request, &arcs) {
                ladders = ladders.min(own.ladder_words());
                labels = labels.min(own.label_words());
            }
            found.push(Build {
                request,
                arcs,
                ladders,
                labels,
            });
        }
        found
    }

    fn told(&self) -> String {
        format!(
            "build, room for {} ladder words and {} label words: {:?}, arc words {:?}",
            self.ladders, self.labels, self.request, self.arcs
        )
    }
}

/// A request to build: small, middling, now and then large, or with values at
/// the limits and past them; its rooms are about what it needs.
pub fn to_build(rng: &mut Rng, turn: usize) -> Build {
    let (request, mut arcs) = match turn % 8 {
        0..=2 => small_request(rng),
        3 | 4 => listed_request(rng),
        5 if turn % 40 == 5 => large_request(rng),
        _ => edge_request(rng),
    };
    slip(rng, &request, &mut arcs);
    let (ladder_words, label_words) =
        shape(&request, &arcs).map_or((8, 40), |own| (own.ladder_words(), own.label_words()));
    let (mut ladders, mut labels) = (ladder_words, label_words);
    match rng.below(4) {
        0 => ladders = about(rng, ladder_words),
        1 => labels = about(rng, label_words),
        2 => {
            ladders += rng.below(9);
            labels += rng.below(9);
        }
        _ => {}
    }
    Build {
        request,
        arcs,
        ladders,
        labels,
    }
}
