//! Lent buffers: each row 13, what a refusal leaves, and the reader's and
//! writer's own rows.

use super::hand::{example, SHEET};
use super::model::back::{read_back, ReadBack};
use super::model::fences::Ratio;
use super::model::gen::{edge_request, request};
use super::model::request::{refusal, shape, Refusal, Request, NUMBERS};
use super::model::rng::Rng;
use super::model::rounds::build;
use super::model::sheet::{read, write, MOST_NUMBER, MOST_SHEET};

/// A word that no answer of these checks writes.
const LEFT: u32 = 0xa5a5_a5a5;

const HALF: Ratio = Ratio { p: 1, q: 2 };
const EXACT: Ratio = Ratio { p: 0, q: 1 };

/// 13 of the build and of the read-back, then 14, 15 and 16.
fn buffers() {
    let (request, arcs) = example();
    let (mut ladders, mut labels) = (vec![LEFT; 5], vec![LEFT; 192]);
    let answer = build(&request, &arcs, &mut ladders[..4], &mut labels[..191]);
    assert_eq!(answer, Err(refusal(13, 1)));
    let answer = build(&request, &arcs, &mut ladders, &mut labels[..191]);
    assert_eq!(answer, Err(refusal(13, 2)));
    assert!(ladders.iter().chain(&labels).all(|&word| word == LEFT));
    assert_eq!(build(&request, &arcs, &mut ladders, &mut labels), Ok(8));
    assert_eq!(ladders, [0, 1, 3, 7, 15]);

    let mut route = [LEFT; 3];
    let mut back = |labels: &[u32], layer, node, cell, room: usize| {
        let answer = read_back(
            &request,
            &arcs,
            labels,
            layer,
            node,
            cell,
            &mut route[..room],
        );
        (answer, route)
    };
    let no = |number, place| (ReadBack::Refused(refusal(number, place)), [LEFT; 3]);
    assert_eq!(back(&labels[..191], 9, 9, 9, 1), no(13, 1));
    assert_eq!(back(&labels, 9, 9, 9, 1), no(13, 2));
    for (layer, node, cell) in [(3, 0, 0), (0, 4, 0), (0, 0, 4), (u32::MAX, 0, 0)] {
        assert_eq!(back(&labels, layer, node, cell, 2), no(14, 0));
    }
    assert_eq!(back(&labels, 0, 1, 0, 2), (ReadBack::Empty, [LEFT; 3]));
    let route_of = |arcs, costs: [u32; 2]| ReadBack::Route {
        arcs,
        costs: costs.to_vec(),
    };
    assert_eq!(back(&labels, 0, 0, 0, 3), (route_of(0, [0, 0]), [LEFT; 3]));
    assert_eq!(
        back(&labels, 2, 3, 3, 3),
        (route_of(2, [8, 5]), [1, 3, LEFT])
    );
}

/// The reader's and the writer's own rows.
fn sheets() {
    let sheet = SHEET.as_bytes();
    let mut arcs = [LEFT; 21];
    assert_eq!(read(sheet, &mut arcs[..19]), Err(refusal(13, 1)));
    assert_eq!(arcs, [LEFT; 21]);
    // "the reader weighs 12 before 1"
    assert_eq!(
        read(&[b'\n'; MOST_SHEET + 1], &mut arcs),
        Err(refusal(12, 0))
    );
    assert_eq!(read(&[b'\n'; MOST_SHEET], &mut arcs), Err(refusal(1, 1)));
    assert!(read(sheet, &mut arcs).is_ok());
    assert_eq!(arcs[20], LEFT);

    let (request, arcs) = example();
    let mut out = vec![0xa5; MOST_SHEET + 9];
    let mut wrote = |request: Request, arcs: &[u32], room: usize| {
        let answer = write(&request, arcs, &mut out[..room]);
        assert!(answer.is_ok() || out.iter().all(|&byte| byte == 0xa5));
        out.fill(0xa5);
        answer
    };
    let all = MOST_SHEET + 9;
    let wide = u32::MAX;
    let worst = Request {
        criteria: 4,
        nodes: wide,
        ..request
    };
    assert_eq!(wrote(worst, &[wide; 2_057], 0), Err(refusal(3, 0)));
    assert_eq!(
        wrote(
            Request {
                criteria: 2,
                ..worst
            },
            &[wide; 2_057],
            0
        ),
        Err(refusal(7, 0))
    );
    assert_eq!(
        wrote(
            Request {
                criteria: 2,
                ..worst
            },
            &[wide; 2_052],
            0
        ),
        Err(refusal(7, 0))
    );
    assert_eq!(wrote(request, &[wide; 2_048], 0), Err(refusal(11, 0)));
    assert_eq!(
        wrote(request, &[MOST_NUMBER; 2_048], 0),
        Err(refusal(12, 0))
    );
    assert_eq!(wrote(request, &arcs, SHEET.len() - 1), Err(refusal(13, 1)));
    assert_eq!(wrote(request, &arcs, SHEET.len()), Ok(SHEET.len()));
    let past = MOST_NUMBER + 1;
    for own in [
        Request {
            nodes: past,
            ..request
        },
        Request {
            source: past,
            ..request
        },
        Request {
            hops: past,
            ..request
        },
        Request {
            ratios: [Ratio { p: past, q: 1 }, EXACT],
            ..request
        },
        Request {
            ratios: [Ratio { p: 1, q: past }, EXACT],
            ..request
        },
    ] {
        assert_eq!(wrote(own, &arcs, all), Err(refusal(11, 0)));
    }
    // "(the unused ratio is not written)"; ranges are no rows of the writer.
    let unused = Request {
        nodes: 0,
        hops: 64,
        ratios: [HALF, Ratio { p: wide, q: 0 }],
        ..request
    };
    assert!(wrote(unused, &arcs, all).is_ok());
    let used = Request {
        criteria: 3,
        ..unused
    };
    assert_eq!(wrote(used, &arcs, all), Err(refusal(11, 0)));
}

/// Generated requests: a refused build leaves every word, an accepted one
/// fills its own words and leaves those beyond.
fn generated() -> usize {
    let mut rng = Rng::new(13);
    let mut seen = [0_usize; NUMBERS];
    for turn in 0..1_500 {
        let (request, arcs) = if turn % 50 == 0 {
            request(&mut rng)
        } else {
            edge_request(&mut rng)
        };
        let own = shape(&request, &arcs);
        let (ladder_words, label_words) = own
            .as_ref()
            .map_or((9, 9), |s| (s.ladder_words(), s.label_words()));
        let short = rng.one_in(4);
        let mut ladders = vec![LEFT; ladder_words + 3];
        let mut labels = vec![LEFT; label_words + 3];
        if short && rng.one_in(2) {
            ladders.truncate(ladder_words - 1);
        } else if short {
            labels.truncate(label_words - 1);
        }
        let answer = build(&request, &arcs, &mut ladders, &mut labels);
        match answer {
            Err(Refusal { number, .. }) => {
                seen[number as usize] += 1;
                assert!(ladders.iter().chain(&labels).all(|&word| word == LEFT));
                assert!(own.is_err() || (short && number == 13));
            }
            Ok(_) => {
                seen[0] += 1;
                assert!(own.is_ok() && !short);
                assert!(!ladders[..ladder_words].contains(&LEFT));
                assert!(!labels[..label_words].contains(&LEFT));
                assert_eq!(
                    (&ladders[ladder_words..], &labels[label_words..]),
                    (&[LEFT; 3][..], &[LEFT; 3][..])
                );
            }
        }
    }
    for number in [0, 2, 3, 4, 5, 6, 7, 8, 9, 10, 13, 17] {
        assert!(seen[number] > 0, "no request was refused {number}");
    }
    seen.iter().sum()
}

/// The told cases, then generated builds.
pub fn lent() -> String {
    buffers();
    sheets();
    format!("rows 11 to 15, {} generated builds", generated())
}
