//! Damage done to sheets and to label tables.

use super::gen::sized_sheet;
use super::request::{arc, Request, Shape};
use super::rng::Rng;
use super::rounds::{BY_ARC, EMPTY, KEPT, START};
use super::sheet::MOST_SHEET;

/// The lines of any bytes, each with its LF where it has one.
fn cut_lines(sheet: &[u8]) -> Vec<Vec<u8>> {
    sheet
        .split_inclusive(|&byte| byte == b'\n')
        .map(|line| line.to_vec())
        .collect()
}

/// Where a random field lies: from its first byte to past its last.
fn a_field(rng: &mut Rng, sheet: &[u8]) -> (usize, usize) {
    let parts = |byte: u8| byte == b'\t' || byte == b'\n';
    let start = rng.below(sheet.len().max(1));
    let mut from = start.min(sheet.len());
    while from > 0 && !parts(sheet[from - 1]) {
        from -= 1;
    }
    let mut to = from;
    while to < sheet.len() && !parts(sheet[to]) {
        to += 1;
    }
    (from, to)
}

/// One piece of damage to a sheet, or a sheet at a limit of length or arcs in
/// its place. Works on any bytes, damaged before or not.
pub fn damage_sheet(rng: &mut Rng, sheet: &mut Vec<u8>) {
    let mut lines = cut_lines(sheet);
    let line = rng.below(lines.len().max(1));
    let byte = rng.below(sheet.len().max(1));
    let (from, to) = a_field(rng, sheet);
    let some = !sheet.is_empty();
    match rng.below(22) {
        // A flipped byte.
        0 if some => sheet[byte] ^= rng.between(1, 255) as u8,
        1 if some => sheet[byte] = rng.pick(b"\t\n\r 0123456789-+atk\0\x7f\xff"),
        // A cut.
        2 => sheet.truncate(byte),
        // A doubled line.
        3 if some => {
            lines.insert(line, lines[line].clone());
            *sheet = lines.concat();
        }
        // CR LF, in every line or in one.
        4 => {
            *sheet = lines
                .concat()
                .split(|&b| b == b'\n')
                .collect::<Vec<_>>()
                .join(&b"\r\n"[..])
        }
        5 if some && lines[line].ends_with(b"\n") => {
            let end = lines[line].len() - 1;
            lines[line].insert(end, b'\r');
            *sheet = lines.concat();
        }
        // 8, 9 and 10 digits.
        6 => {
            let digits: &[u8] = rng.pick(&[
                &b"99999999"[..],
                b"100000000",
                b"123456789",
                b"999999999",
                b"4294967297",
            ]);
            sheet.splice(from..to, digits.iter().copied());
        }
        // Leading zeros.
        7 => {
            sheet.splice(
                from..from,
                rng.pick(&[&b"0"[..], b"00", b"0000000"]).iter().copied(),
            );
        }
        // 512 to 514 arcs.
        8 if lines.len() > 1 => {
            let ask = lines.pop().unwrap();
            let d_3 = lines[0].ends_with(b"\t3\n");
            let own: &[u8] = if d_3 {
                b"arc\t0\t1\t0\t0\t0\n"
            } else {
                b"arc\t0\t1\t0\t0\n"
            };
            lines.truncate(1);
            lines.resize(1 + rng.pick(&[512, 513, 514]), own.to_vec());
            lines.push(ask);
            *sheet = lines.concat();
        }
        // 8,192 and 8,193 bytes, in form.
        9 => *sheet = sized_sheet(rng, MOST_SHEET),
        10 => *sheet = sized_sheet(rng, MOST_SHEET + 1),
        // Lines after `ask`.
        11 => {
            let more: &[u8] = rng.pick(&[
                &b"\n"[..],
                b"arc\t0\t0\t0\t0\n",
                b"ask\t0\t0\t0\t1\n",
                b"\t",
                b"x",
                b"ask",
                b"\0",
            ]);
            sheet.extend_from_slice(more);
        }
        // A missing LF, of the last line or of any.
        12 => {
            sheet.pop();
        }
        13 if some => {
            lines[line].pop();
            *sheet = lines.concat();
        }
        // A byte too many or too few.
        14 => sheet.insert(byte, rng.pick(b"\t\n\r 0123456789-+atk\0\xff")),
        15 if some => {
            sheet.remove(byte);
        }
        // Lines swapped, or one gone.
        16 if some => {
            let other = rng.below(lines.len());
            lines.swap(line, other);
            *sheet = lines.concat();
        }
        17 if some => {
            lines.remove(line);
            *sheet = lines.concat();
        }
        // A field emptied, or put at a limit.
        18 => {
            sheet.drain(from..to);
        }
        19 => {
            let limits: &[u8] = rng.pick(&[
                &b"0"[..],
                b"1",
                b"2",
                b"3",
                b"4",
                b"63",
                b"64",
                b"65",
                b"1000",
                b"1001",
                b"1000000",
                b"1000001",
                b"tracks",
                b"arc",
                b"ask",
            ]);
            sheet.splice(from..to, limits.iter().copied());
        }
        // A whole field too many.
        20 => {
            sheet.splice(to..to, b"\t0".iter().copied());
        }
        // Nothing left, or nothing but length.
        _ => {
            let length = rng.pick(&[0, 0, MOST_SHEET, MOST_SHEET + 1]);
            sheet.resize(length, b'\n');
        }
    }
}

/// The start of a random label, a filled one where a few looks find it, and
/// its layer.
fn a_label(rng: &mut Rng, labels: &[u32], request: &Request, shape: &Shape) -> (usize, u32) {
    let d = request.criteria as usize;
    let mut found = (0, 0);
    for _ in 0..30 {
        let layer = rng.between(0, request.hops);
        let node = rng.between(0, request.nodes - 1);
        let cell = rng.below(shape.cells as usize) as u64;
        let start = shape.label_start(request.nodes, layer, node, cell);
        found = (start, layer);
        if labels[start + d] != EMPTY {
            break;
        }
    }
    found
}

/// One piece of damage to the label table of an accepted request: the table
/// is at least as long as the shape's labels.
pub fn damage_labels(
    rng: &mut Rng,
    labels: &mut [u32],
    request: &Request,
    arcs: &[u32],
    shape: &Shape,
) {
    let d = request.criteria as usize;
    let many = u32::MAX;
    let cells = shape.cells as u32;
    let count = shape.arcs as u32;
    let (start, layer) = a_label(rng, labels, request, shape);
    let (other, _) = a_label(rng, labels, request, shape);
    let (step, from) = (start + d, start + d + 1);
    match rng.below(10) {
        0 => labels[start + rng.below(d + 2)] = rng.word(),
        1 => labels[start + rng.below(d + 2)] ^= 1 << rng.below(32),
        2 => {
            let past = BY_ARC + count;
            let last = past - 1;
            labels[step] = rng.pick(&[EMPTY, START, KEPT, BY_ARC, last, past, many]);
        }
        3 => labels[from] = rng.pick(&[0, 1, cells - 1, cells, many]),
        4 => {
            let at = start + rng.below(d);
            labels[at] = rng.pick(&[0, labels[at].wrapping_add(1), labels[at] / 2, many]);
        }
        // "empty when its step is 0, with any other words"
        5 => labels[step] = EMPTY,
        6 => {
            for k in 0..d + 2 {
                labels.swap(start + k, other + k);
            }
        }
        7 => labels.copy_within(other..other + d + 2, start),
        // "Sums in the read-back that wrap on a damaged table."
        8 => {
            let a = labels[step].wrapping_sub(BY_ARC);
            if layer > 0 && labels[step] >= BY_ARC && a < count && labels[from] < cells {
                let arc = arc(arcs, shape.words, a as usize);
                let cell = u64::from(labels[from]);
                let earlier = shape.label_start(request.nodes, layer - 1, arc.tail, cell);
                for k in 0..d {
                    labels[earlier + k] = many - rng.between(0, 3);
                    labels[start + k] = labels[earlier + k].wrapping_add(arc.costs[k]);
                }
            }
        }
        _ => {
            for k in 0..d + 2 {
                labels[start + k] = rng.word();
            }
        }
    }
}
