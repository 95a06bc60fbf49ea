//! Fences, positions, bucket counts and ladders.

/// "Buckets of one criterion at most 4,096."
pub const MOST_BUCKETS: u64 = 4_096;

/// A ratio p over q.
#[derive(Clone, Copy, Debug, PartialEq, Eq)]
pub struct Ratio {
    pub p: u32,
    pub q: u32,
}

impl Ratio {
    /// "Ratio p over q: q 1 to 1,000, p 0 to q."
    pub fn in_range(self) -> bool {
        1 <= self.q && self.q <= 1_000 && self.p <= self.q
    }
}

/// "the next fence is b × (p+q) / q rounded down, plus 1"
pub fn next_fence(ratio: Ratio, b: u64) -> u64 {
    let (p, q) = (u64::from(ratio.p), u64::from(ratio.q));
    b * (p + q) / q + 1
}

/// "fence 0 is 0", and fence j is the next one after fence j - 1.
pub fn fence(ratio: Ratio, j: u64) -> u64 {
    let mut b = 0;
    for _ in 0..j {
        b = next_fence(ratio, b);
    }
    b
}

/// "Cost c has position j when fence j ≤ c < fence j+1."
pub fn position(ratio: Ratio, c: u64) -> u64 {
    let mut j = 0;
    let mut after = next_fence(ratio, 0);
    while after <= c {
        j += 1;
        after = next_fence(ratio, after);
    }
    j
}

/// "Its bucket count B is the position of T, plus 1". Nothing where B is over
/// 4,096: the count stops there, since a top may be 63,000,000.
pub fn bucket_count(ratio: Ratio, top: u64) -> Option<u64> {
    let mut buckets = 1;
    let mut after = next_fence(ratio, 0);
    while after <= top {
        buckets += 1;
        if buckets > MOST_BUCKETS {
            return None;
        }
        after = next_fence(ratio, after);
    }
    Some(buckets)
}

/// "its ladder is fences 0 to B, so B+1 numbers"
pub fn ladder(ratio: Ratio, buckets: u64) -> Vec<u64> {
    let mut fences = vec![0];
    for j in 0..buckets as usize {
        fences.push(next_fence(ratio, fences[j]));
    }
    fences
}

/// The position of a cost below the ladder's last fence, read off the ladder:
/// the fences at or below the cost, less fence 0.
pub fn position_on(ladder: &[u64], c: u64) -> u64 {
    let below = ladder.partition_point(|&fence| fence <= c);
    assert!(below < ladder.len(), "cost {c} lies past the ladder");
    below as u64 - 1
}
