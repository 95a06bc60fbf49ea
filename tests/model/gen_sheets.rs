//! Generated sheets.

use super::gen::{edge_request, large_request, listed_request, slip, small_request};
use super::rng::Rng;
use super::sheet::{text, MOST_SHEET};

/// A sheet in form, of a request that is accepted but for a slip, small or
/// large.
pub fn sheet(rng: &mut Rng) -> Vec<u8> {
    let (request, mut arcs) = match rng.below(8) {
        0..=3 => small_request(rng),
        4..=6 => listed_request(rng),
        _ => large_request(rng),
    };
    let words = request.criteria as usize + 2;
    while text(&request, &arcs).len() > MOST_SHEET {
        arcs.truncate(arcs.len() - words);
    }
    slip(rng, &request, &mut arcs);
    text(&request, &arcs)
}

/// A sheet with values at the limits of "Sizes" or just past them: also d 0,
/// 1, 4 and 8 digits, 512 and 513 arcs, and 8,191 to 8,193 bytes.
pub fn edge_sheet(rng: &mut Rng) -> Vec<u8> {
    match rng.below(12) {
        0 => {
            let size = rng.pick(&[MOST_SHEET - 1, MOST_SHEET, MOST_SHEET + 1]);
            sized_sheet(rng, size)
        }
        1 => counted_sheet(rng),
        2 => {
            let d = rng.pick(&["0", "1", "4", "22", "99999999"]);
            format!("tracks\t1\t{d}\nask\t0\t0\t0\t1\n").into_bytes()
        }
        3 => {
            let field = rng.pick(&["99999999", "100000000", "10000000", "1000001", "4294967296"]);
            let mut at = ["2", "0", "1", "0", "0", "0", "1"];
            at[rng.below(7)] = field;
            let [n, tail, head, c1, c2, source, k] = at;
            format!("tracks\t{n}\t2\narc\t{tail}\t{head}\t{c1}\t{c2}\nask\t{source}\t{k}\t1\t1\n")
                .into_bytes()
        }
        _ => loop {
            let (request, arcs) = edge_request(rng);
            let d_right = request.criteria == 2 || request.criteria == 3;
            if d_right && arcs.len() % (request.criteria as usize + 2) == 0 {
                return text(&request, &arcs);
            }
        },
    }
}

/// A sheet of 511 to 514 short arcs.
fn counted_sheet(rng: &mut Rng) -> Vec<u8> {
    let count = rng.pick(&[511, 512, 513, 514]);
    let (zeros, ratios) = rng.pick(&[("\t0\t0", "\t1\t1"), ("\t0\t0\t0", "\t1\t1\t0\t1")]);
    let d = zeros.len() / 2;
    let arcs = format!("arc\t0\t1{zeros}\n").repeat(count);
    format!("tracks\t2\t{d}\n{arcs}ask\t0\t2{ratios}\n").into_bytes()
}

/// A sheet of exactly `size` bytes, 100 to 8,193, in form but for its length,
/// and of at most 512 arcs.
pub fn sized_sheet(rng: &mut Rng, size: usize) -> Vec<u8> {
    let d = rng.between(2, 3) as usize;
    let first = format!("tracks\t2\t{d}\n");
    let ask = format!("ask\t0\t1{}\n", "\t1\t1".repeat(d - 1));
    // The shortest arc line has costs of one digit, the longest of seven.
    let (short, long) = (8 + 2 * d, 8 + 8 * d);
    let mut sheet = first;
    let mut left = size - sheet.len() - ask.len();
    while left > 0 {
        let length = if left <= long {
            left
        } else if left <= 2 * long {
            left / 2
        } else {
            rng.between((short + long) as u32 / 2, long as u32) as usize
        };
        sheet.push_str(&arc_line(rng, d, length));
        left -= length;
    }
    sheet.push_str(&ask);
    sheet.into_bytes()
}

/// An arc line of exactly so many bytes.
fn arc_line(rng: &mut Rng, d: usize, length: usize) -> String {
    let tail = rng.below(2);
    let mut line = format!("arc\t{tail}\t{}", 1 - tail);
    let mut extra = length - (8 + 2 * d);
    for k in 0..d {
        let own = extra.div_ceil(d - k);
        extra -= own;
        let least = 10_u32.pow(own as u32);
        let cost = if own == 6 {
            least
        } else {
            rng.between(least, 10 * least - 1)
        };
        line.push_str(&format!("\t{cost}"));
    }
    line.push('\n');
    line
}
