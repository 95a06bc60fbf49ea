//! Worked inputs of document 02's requests with the results that were worked
//! out by hand: the model is held to them here, the lister by the trials, and
//! the calls by the differential test.

use super::fences::Ratio;
use super::request::Request;

/// A sheet, with `|` for a tab and `/` for a line's end.
fn sheet(lines: &str) -> String {
    lines.replace('|', "\t").replace('/', "\n") + "\n"
}

/// Sheets and what the lister prints for them.
pub fn sheets() -> Vec<(String, &'static str)> {
    let f = [
        // f1. "Case 9 becomes a refusal."
        ("tracks|1|2/arc|0|0|1|1/ask|0|2|1|1", "refused\t17\t0\n"),
        // f2. "17, place the arc"
        (
            "tracks|2|2/arc|0|1|1|1/arc|1|1|1|1/ask|0|2|1|1",
            "refused\t17\t1\n",
        ),
        // f3, f4. "In each arc the node ranges are weighed first, then this,
        // then the costs"
        ("tracks|2|2/arc|2|2|1|1/ask|0|2|1|1", "refused\t8\t0\n"),
        (
            "tracks|2|2/arc|1|1|1000001|0/ask|0|2|1|1",
            "refused\t17\t0\n",
        ),
        // f5, f6. "the first arc with any of these faults decides"
        (
            "tracks|2|2/arc|0|1|1000001|0/arc|1|1|0|0/ask|0|2|1|1",
            "refused\t8\t0\n",
        ),
        (
            "tracks|2|2/arc|1|1|0|0/arc|0|1|1000001|0/ask|0|2|1|1",
            "refused\t17\t0\n",
        ),
        // f7, f8. After 6, before 9.
        ("tracks|2|2/arc|1|1|0|0/ask|0|2|2|1", "refused\t6\t1\n"),
        (
            "tracks|2|2/arc|0|1|4096|0/arc|1|1|0|0/ask|0|1|0|1",
            "refused\t17\t1\n",
        ),
    ];
    f.iter()
        .map(|&(lines, told)| (sheet(lines), told))
        .collect()
}

/// f9, f10: a request with a track from camp 1 to itself, and its arc words.
pub fn loop_at_one() -> (Request, Vec<u32>) {
    let ratios = [Ratio { p: 1, q: 1 }, Ratio { p: 0, q: 1 }];
    let request = Request {
        nodes: 2,
        criteria: 2,
        source: 0,
        hops: 2,
        ratios,
    };
    (request, vec![1, 1, 7, 7])
}

/// f9: its sheet. The writer weighs no ranges, nor does the reader, which
/// reads it back.
pub fn loop_at_one_sheet() -> String {
    sheet("tracks|2|2/arc|1|1|7|7/ask|0|2|1|1")
}
