//! A case: what the planner is asked, and what the model says that it must
//! answer and leave. Cases are run, counted, and made small where the two
//! disagree.

use super::model::fences::Ratio;
use super::model::request::{Refusal, Request, NUMBERS};
use super::model::rng::Rng;
use super::pipe::{Asked, Outcome, Planner};

/// One input of one call.
pub trait Case: Clone {
    /// What the harness is asked.
    fn asked(&self) -> Asked;
    /// What the model says.
    fn wanted(&self) -> Outcome;
    /// Smaller inputs of the same kind, the smallest first.
    fn smaller(&self) -> Vec<Self>;
    /// The input in words.
    fn told(&self) -> String;
}

/// The request as it crosses: N, d, source, K, p and q twice.
pub fn request_words(request: &Request) -> [u32; 8] {
    let [one, two] = request.ratios;
    [
        request.nodes,
        request.criteria,
        request.source,
        request.hops,
        one.p,
        one.q,
        two.p,
        two.q,
    ]
}

/// An answer as it crosses: number × 2^48 + byte × 2^32 + low.
pub fn packed(answer: Result<u64, Refusal>) -> u64 {
    match answer {
        Ok(count) => count,
        Err(refused) => u64::from(refused.number) << 48 | u64::from(refused.place),
    }
}

/// A buffer's size about what is needed: none, one short, exact, longer.
pub fn about(rng: &mut Rng, needed: usize) -> usize {
    match rng.below(8) {
        0 => 0,
        1 => needed.saturating_sub(1),
        2 => rng.below(needed + 1),
        3..=5 => needed,
        _ => needed + rng.below(9),
    }
}

/// Smaller requests with their arcs: fewer arcs, fewer hops, plainer numbers.
pub fn smaller_requests(request: &Request, arcs: &[u32]) -> Vec<(Request, Vec<u32>)> {
    let width = request.criteria.clamp(2, 3) as usize + 2;
    let count = arcs.len() / width;
    let mut found = vec![(*request, Vec::new())];
    found.push((*request, arcs[..count / 2 * width].to_vec()));
    found.push((*request, arcs[count / 2 * width..].to_vec()));
    for hops in [0, request.hops / 2, request.hops.saturating_sub(1)] {
        found.push((Request { hops, ..*request }, arcs.to_vec()));
    }
    for nodes in [request.nodes / 2, request.nodes.saturating_sub(1)] {
        found.push((Request { nodes, ..*request }, arcs.to_vec()));
    }
    for k in 0..2 {
        let mut own = *request;
        own.ratios[k] = Ratio { p: 1, q: 1 };
        found.push((own, arcs.to_vec()));
    }
    for a in 0..count {
        let mut fewer = arcs.to_vec();
        fewer.drain(a * width..(a + 1) * width);
        found.push((*request, fewer));
    }
    for k in 0..arcs.len().min(64) {
        for value in [0, arcs[k] / 2] {
            let mut plainer = arcs.to_vec();
            plainer[k] = value;
            found.push((*request, plainer));
        }
    }
    found.retain(|own| own.0 != *request || own.1 != arcs);
    found
}

/// How often each number was answered.
pub type Seen = [usize; NUMBERS];

/// Runs so many generated cases. A disagreement is told on the smallest input
/// that was found for it.
pub fn run<C: Case>(
    planner: &mut Planner,
    seed: u64,
    count: usize,
    make: fn(&mut Rng, usize) -> C,
) -> Result<Seen, String> {
    let mut rng = Rng::new(seed);
    let mut seen = [0; NUMBERS];
    for turn in 0..count {
        let case = make(&mut rng, turn);
        let wanted = case.wanted();
        if disagree(planner, &case, &wanted).is_some() {
            return Err(format!(
                "case {turn} of seed {seed} disagrees; the smallest input found:\n{}",
                smallest(planner, case)
            ));
        }
        let number = (wanted.answer >> 48) as usize;
        seen[number] += 1;
    }
    Ok(seen)
}

/// How the planner's outcome differs from the model's, if it does.
fn disagree<C: Case>(planner: &mut Planner, case: &C, wanted: &Outcome) -> Option<String> {
    let got = match planner.ask(&case.asked()) {
        Ok(got) => got,
        Err(error) => return Some(format!("the harness ended: {error}")),
    };
    if got == *wanted {
        return None;
    }
    let mut told = String::new();
    if got.faults & 1 != 0 {
        told.push_str("a guard beside a buffer changed\n");
    }
    if got.faults & 2 != 0 {
        told.push_str("an input changed\n");
    }
    if got.answer != wanted.answer {
        told.push_str(&format!(
            "answer {:#018x}, wanted {:#018x}\n",
            got.answer, wanted.answer
        ));
    }
    if got.request != wanted.request {
        told.push_str(&format!(
            "request words {:?}, wanted {:?}\n",
            got.request, wanted.request
        ));
    }
    if got.costs != wanted.costs {
        told.push_str(&format!(
            "costs {:?}, wanted {:?}\n",
            got.costs, wanted.costs
        ));
    }
    let buffers = [
        ("first", &got.first, &wanted.first),
        ("second", &got.second, &wanted.second),
    ];
    for (name, own, model) in buffers {
        if let Some(at) = (0..own.len()).find(|&i| own[i] != model[i]) {
            told.push_str(&format!(
                "the {name} lent buffer differs at byte {at}: {}, wanted {}\n",
                own[at], model[at]
            ));
        }
    }
    Some(told)
}

/// Goes to smaller inputs as long as one of them still disagrees.
fn smallest<C: Case>(planner: &mut Planner, mut case: C) -> String {
    let mut tried = 0;
    'smaller: while tried < 20_000 {
        for own in case.smaller() {
            tried += 1;
            if disagree(planner, &own, &own.wanted()).is_some() {
                case = own;
                continue 'smaller;
            }
        }
        break;
    }
    let told = disagree(planner, &case, &case.wanted()).unwrap_or_default();
    format!("{}\n{told}", case.told())
}
