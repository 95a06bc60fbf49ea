//! The listing, the C call and the lister.

use super::back::{read_back, ReadBack};
use super::fences::MOST_BUCKETS;
use super::request::{refusal, shape, Refusal, Request, MOST_ARCS, MOST_HOPS};
use super::rounds::build;
use super::sheet::read;

/// "with 12,288 label words of its own"
pub const LIST_LABEL_WORDS: usize = 12_288;
/// "arc and ladder room that always suffices": 512 arcs of 5 words.
const LIST_ARC_WORDS: usize = MOST_ARCS * 5;
/// Two ladders of 4,097 fences.
const LIST_LADDER_WORDS: usize = 2 * (MOST_BUCKETS as usize + 1);

/// The listing of a built table. "`cover`: filled labels in layer K, tries.
/// `label`: node, d costs, arc count, the arc numbers; nodes rising, then
/// cells rising." "Every printed line ends in LF."
pub fn listing(request: &Request, arcs: &[u32], labels: &[u32], tries: u64) -> Vec<u8> {
    let shape = shape(request, arcs).expect("a listing is made of an accepted request");
    let mut filled = 0;
    let mut lines = String::new();
    for node in 0..request.nodes {
        for cell in 0..shape.cells as u32 {
            let mut route = [0; MOST_HOPS as usize];
            match read_back(request, arcs, labels, request.hops, node, cell, &mut route) {
                ReadBack::Empty => {}
                ReadBack::Refused(refused) => panic!("a built label reads back: {refused:?}"),
                ReadBack::Route { arcs: count, costs } => {
                    filled += 1;
                    lines.push_str(&format!("label\t{node}"));
                    for cost in costs {
                        lines.push_str(&format!("\t{cost}"));
                    }
                    lines.push_str(&format!("\t{count}"));
                    for a in &route[..count as usize] {
                        lines.push_str(&format!("\t{a}"));
                    }
                    lines.push('\n');
                }
            }
        }
    }
    format!("cover\t{filled}\t{tries}\n{lines}").into_bytes()
}

/// "reader, build and listing": the listing of a sheet, or the refusal; the
/// listing's 13 is the caller's to give.
pub fn sheet_listing(sheet: &[u8]) -> Result<Vec<u8>, Refusal> {
    let mut arcs = vec![0; LIST_ARC_WORDS];
    let mut ladders = vec![0; LIST_LADDER_WORDS];
    let mut labels = vec![0; LIST_LABEL_WORDS];
    let (request, arc_words) = read(sheet, &mut arcs)?;
    let arcs = &arcs[..arc_words];
    let tries = build(&request, arcs, &mut ladders, &mut labels)?;
    Ok(listing(&request, arcs, &labels, tries))
}

/// One 64-bit number: number × 2^48 + byte × 2^32 + low, byte 0.
pub fn pack(number: u32, low: u32) -> u64 {
    u64::from(number) << 48 | u64::from(low)
}

/// The C call. "its 13 has place 2 for those and 3 for a listing longer than
/// the byte buffer. It answers the listing's length in bytes, or number and
/// place, in one 64-bit number".
pub fn list(sheet: &[u8], buffer: &mut [u8]) -> u64 {
    let answer = sheet_listing(sheet).and_then(|own| {
        if own.len() > buffer.len() {
            return Err(refusal(13, 3));
        }
        buffer[..own.len()].copy_from_slice(&own);
        Ok(own.len())
    });
    match answer {
        Ok(length) => pack(0, length as u32),
        Err(refused) => pack(refused.number, refused.place),
    }
}

/// What the lister prints. "A refusal prints `refused`, number, place, on one
/// line, parted by tabs."
pub fn lister(sheet: &[u8]) -> Vec<u8> {
    match sheet_listing(sheet) {
        Ok(own) => own,
        Err(refused) => format!("refused\t{}\t{}\n", refused.number, refused.place).into_bytes(),
    }
}
