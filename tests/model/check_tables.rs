//! Fences, demand 3 by all walks, and damaged label tables.

use super::hand::example;
use super::model::back::{read_back, ReadBack};
use super::model::fences::{bucket_count, ladder, position, position_on, Ratio};
use super::model::gen::{damage_labels, large_request, listed_request, small_request};
use super::model::request::{refusal, shape};
use super::model::rng::Rng;
use super::model::walks::{
    bucket_bound, demand_three, every_label_reads_back, exact_cover, follow, table,
};

/// Fences of random ratios: rising, apart by the ratio, counted and bounded.
pub fn fences() -> String {
    let mut rng = Rng::new(4);
    for _ in 0..400 {
        let q = rng.between(1, 1_000);
        let ratio = Ratio {
            p: rng.between(0, q),
            q,
        };
        let most = rng.pick(&[10, 5_000, 63_000_000]);
        let top = u64::from(rng.between(0, most));
        let Some(buckets) = bucket_count(ratio, top) else {
            assert!(position(ratio, top) + 1 > 4_096);
            continue;
        };
        assert_eq!(buckets, position(ratio, top) + 1);
        assert!(ratio.p == 0 || buckets <= bucket_bound(ratio, top));
        assert!(ratio.p > 0 || buckets == top + 1);
        let own = ladder(ratio, buckets);
        assert_eq!(own.len() as u64, buckets + 1);
        assert!(own[buckets as usize - 1] <= top && top < own[buckets as usize]);
        for pair in own.windows(2) {
            // "Two costs x, y at one position satisfy x × q ≤ y × (p+q)": so
            // do the largest and the least of a bucket.
            let (least, largest) = (pair[0], pair[1] - 1);
            assert!(least <= largest);
            assert!(largest * u64::from(q) <= least * u64::from(ratio.p + q));
        }
        for _ in 0..20 {
            let c = rng.next() % (top + 1);
            assert_eq!(position_on(&own, c), position(ratio, c));
        }
    }
    "400 ratios".to_string()
}

/// Demand 3 on small graphs.
pub fn walks() -> String {
    let mut rng = Rng::new(5);
    let (mut walks, mut labels) = (0, 0);
    let (request, arcs) = example();
    demand_three(&request, &arcs);
    for _ in 0..500 {
        let (request, arcs) = small_request(&mut rng);
        let seen = demand_three(&request, &arcs);
        walks += seen.walks;
        labels += seen.labels;
    }
    format!("500 graphs, {walks} walks, {labels} labels")
}

/// Ratios of p = 0: the cover holds every walk's costs.
pub fn exact() -> String {
    let mut rng = Rng::new(6);
    let mut seen = 0;
    while seen < 150 {
        let (mut request, arcs) = small_request(&mut rng);
        for ratio in &mut request.ratios {
            ratio.p = 0;
        }
        if shape(&request, &arcs).is_ok_and(|own| own.labels <= 100_000) {
            exact_cover(&request, &arcs);
            seen += 1;
        }
    }
    format!("{seen} graphs")
}

/// Larger requests: every label reads back, and tries stay in their bound.
pub fn larger() -> String {
    let mut rng = Rng::new(7);
    let mut labels = 0;
    for turn in 0..60 {
        let (request, arcs) = if turn % 10 == 0 {
            large_request(&mut rng)
        } else {
            listed_request(&mut rng)
        };
        let own = shape(&request, &arcs).expect("an accepted request");
        let (built, tries) = table(&request, &arcs, &own);
        assert!(tries <= u64::from(request.hops) * own.arcs as u64 * own.cells);
        labels += every_label_reads_back(&request, &arcs, &own, &built);
    }
    format!("60 requests, {labels} labels")
}

/// Breaks told in document 01, one by one, on the printed sheet's table: the
/// chain of layer 2, node 3, cell 3 is (8, 5, by arc 3 from 2), then layer 1,
/// node 1, cell 2 (6, 3, by arc 1 from 0), then the start.
fn told_breaks() {
    let (request, arcs) = example();
    let own = shape(&request, &arcs).expect("an accepted request");
    let (built, _) = table(&request, &arcs, &own);
    let word = |layer, node, cell, k| own.label_start(4, layer, node, cell) + k;
    let (last, middle, start) = (word(2, 3, 3, 0), word(1, 1, 2, 0), word(0, 0, 0, 0));
    let broken = |changes: &[(usize, u32)]| {
        let mut labels = built.clone();
        for &(at, value) in changes {
            labels[at] = value;
        }
        let mut route = [7; 2];
        let answer = read_back(&request, &arcs, &labels, 2, 3, 3, &mut route);
        assert!(route == [7; 2] || matches!(answer, ReadBack::Route { .. }));
        match answer {
            ReadBack::Route { .. } => None,
            ReadBack::Empty => Some((15, 0)),
            ReadBack::Refused(refused) => Some((refused.number, refused.place)),
        }
    };
    assert_eq!(broken(&[]), None);
    assert_eq!(broken(&[(last + 2, 0)]), Some((15, 0)));
    // The label's own faults: a start past layer 0, a kept label with a from,
    // an arc not below M, another head, a from not below C.
    assert_eq!(broken(&[(last + 2, 1)]), Some((16, 2)));
    assert_eq!(broken(&[(last + 2, 2)]), Some((16, 2)));
    assert_eq!(broken(&[(last + 2, 8)]), Some((16, 2)));
    assert_eq!(broken(&[(last + 2, u32::MAX)]), Some((16, 2)));
    assert_eq!(broken(&[(last + 2, 3)]), Some((16, 2)));
    assert_eq!(broken(&[(last + 3, 4)]), Some((16, 2)));
    assert_eq!(broken(&[(last + 3, u32::MAX)]), Some((16, 2)));
    // An empty label reached, by a from and by a kept label; also where the
    // costs disagree as well.
    assert_eq!(broken(&[(last + 3, 0)]), Some((16, 1)));
    assert_eq!(broken(&[(last + 3, 0), (last, 9)]), Some((16, 1)));
    assert_eq!(broken(&[(last + 2, 2), (last + 3, 0)]), Some((16, 1)));
    assert_eq!(broken(&[(middle + 2, 0)]), Some((16, 1)));
    assert_eq!(broken(&[(start + 2, 0)]), Some((16, 0)));
    // Costs that disagree, at each label.
    assert_eq!(broken(&[(last, 9)]), Some((16, 2)));
    assert_eq!(broken(&[(last + 1, 4)]), Some((16, 2)));
    assert_eq!(broken(&[(middle, 7)]), Some((16, 2)));
    assert_eq!(broken(&[(middle, 7), (last, 9)]), Some((16, 1)));
    // The first that fails counts, not the lowest layer.
    assert_eq!(broken(&[(last, 9), (start + 2, 0)]), Some((16, 2)));
    // The start: its costs, its from; a layer before is missing.
    assert_eq!(broken(&[(start, 1), (middle, 7), (last, 9)]), Some((16, 0)));
    assert_eq!(broken(&[(start + 3, 1)]), Some((16, 0)));
    assert_eq!(broken(&[(start + 2, 2)]), Some((16, 0)));
    assert_eq!(broken(&[(start + 2, 3)]), Some((16, 0)));
    // A start that lies elsewhere in layer 0.
    let moved = word(0, 0, 1, 0);
    assert_eq!(broken(&[(middle + 3, 1), (moved + 2, 1)]), Some((16, 0)));
    // "summed without wrap": 2 more than 2^32 - 1 is not 1.
    assert_eq!(broken(&[(last, 1), (middle, u32::MAX)]), Some((16, 2)));
    // A chain may hold though its costs lie in another cell.
    let kept = word(1, 3, 0, 0);
    let other = [
        (kept, 1),
        (kept + 1, 1),
        (kept + 2, 2),
        (word(0, 3, 0, 2), 1),
    ];
    assert_eq!(broken(&other), None);
}

/// Damaged tables: a route is still a walk with the label's sums, and nothing
/// else writes the route buffer.
pub fn damaged_tables() -> String {
    told_breaks();
    let mut rng = Rng::new(8);
    let mut seen = [0_usize; 3];
    for turn in 0..1_500 {
        let (request, arcs) = if turn % 4 == 0 {
            listed_request(&mut rng)
        } else {
            small_request(&mut rng)
        };
        let own = shape(&request, &arcs).expect("an accepted request");
        let (mut labels, _) = table(&request, &arcs, &own);
        for _ in 0..rng.between(1, 6) {
            damage_labels(&mut rng, &mut labels, &request, &arcs, &own);
        }
        let room = request.hops as usize + 2;
        for _ in 0..60 {
            let layer = rng.between(0, request.hops);
            let node = rng.between(0, request.nodes - 1);
            let cell = rng.below(own.cells as usize) as u32;
            let mut route = vec![u32::MAX; room];
            let start = own.label_start(request.nodes, layer, node, u64::from(cell));
            let asked = &labels[start..start + own.words];
            let mut length = 0;
            match read_back(&request, &arcs, &labels, layer, node, cell, &mut route) {
                ReadBack::Route { arcs: count, costs } => {
                    seen[0] += 1;
                    length = count as usize;
                    assert!(count <= layer);
                    let walk = follow(&request, &arcs, &own, &route[..length]).expect("a walk");
                    assert_eq!(walk.node, node);
                    assert_eq!(costs, asked[..own.words - 2]);
                    assert!(walk
                        .costs
                        .iter()
                        .zip(&costs)
                        .all(|(&w, &c)| w == u64::from(c)));
                }
                ReadBack::Empty => {
                    seen[1] += 1;
                    assert_eq!(asked[own.words - 2], 0);
                }
                ReadBack::Refused(refused) => {
                    seen[2] += 1;
                    assert_eq!(refused, refusal(16, refused.place as usize));
                    assert!(refused.place <= layer);
                }
            }
            assert!(route[length..].iter().all(|&word| word == u32::MAX));
        }
    }
    assert!(seen.iter().all(|&count| count > 500), "{seen:?}");
    format!(
        "{} routes, {} empty cells, {} broken chains",
        seen[0], seen[1], seen[2]
    )
}
