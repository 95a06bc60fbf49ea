//! The reader and the writer: sheets read, and requests with their arcs
//! written.

use super::case::{about, packed, request_words, smaller_requests, Case};
use super::model::damage::damage_sheet;
use super::model::gen::{edge_request, large_request, listed_request, slip, small_request};
use super::model::gen_sheets::{edge_sheet, sheet, sized_sheet};
use super::model::request::Request;
use super::model::rng::Rng;
use super::model::sheet::{read, text, write, MOST_SHEET};
use super::model::vectors::{loop_at_one, loop_at_one_sheet};
use super::pipe::{bytes_of, pattern_words, Asked, Outcome, OP_READ, OP_WRITE};

/// A sheet to read, with room for so many arc words.
#[derive(Clone)]
pub struct ReadSheet {
    sheet: Vec<u8>,
    room: usize,
}

impl Case for ReadSheet {
    fn asked(&self) -> Asked {
        Asked {
            op: OP_READ,
            request: pattern_words(8).try_into().expect("eight words"),
            sheet: self.sheet.clone(),
            first: 4 * self.room,
            ..Asked::default()
        }
    }

    fn wanted(&self) -> Outcome {
        let mut outcome = Outcome::untouched(&self.asked());
        let mut arcs = pattern_words(self.room);
        let answer = read(&self.sheet, &mut arcs);
        if let Ok((request, _)) = &answer {
            outcome.request = request_words(request);
        }
        outcome.answer = packed(answer.map(|(_, words)| words as u64));
        outcome.first = bytes_of(&arcs);
        outcome
    }

    fn smaller(&self) -> Vec<ReadSheet> {
        let mut found = Vec::new();
        for sheet in smaller_sheets(&self.sheet) {
            let room = self.room;
            found.push(ReadSheet { sheet, room });
        }
        if self.room > 0 {
            for room in [self.room / 2, self.room - 1] {
                let sheet = self.sheet.clone();
                found.push(ReadSheet { sheet, room });
            }
        }
        found
    }

    fn told(&self) -> String {
        format!(
            "read, room for {} arc words, a sheet of {} bytes:\n\"{}\"",
            self.room,
            self.sheet.len(),
            self.sheet.escape_ascii()
        )
    }
}

/// Smaller sheets: fewer lines, and of short sheets fewer bytes.
pub fn smaller_sheets(sheet: &[u8]) -> Vec<Vec<u8>> {
    let lines: Vec<&[u8]> = sheet.split_inclusive(|&byte| byte == b'\n').collect();
    let mut found = vec![lines[..lines.len() / 2].concat()];
    for k in 0..lines.len() {
        let mut fewer = lines.clone();
        fewer.remove(k);
        found.push(fewer.concat());
    }
    if sheet.len() <= 400 {
        for k in 0..sheet.len() {
            let mut fewer = sheet.to_vec();
            fewer.remove(k);
            found.push(fewer);
        }
    }
    found.retain(|own| own.len() < sheet.len());
    found
}

/// A sheet in form, at a limit, or damaged, of any length.
pub fn any_sheet(rng: &mut Rng, turn: usize) -> Vec<u8> {
    let mut own = match turn % 8 {
        0 => sheet(rng),
        1 | 2 => edge_sheet(rng),
        3 => {
            let (request, mut arcs) = listed_request(rng);
            slip(rng, &request, &mut arcs);
            text(&request, &arcs)
        }
        4 if turn % 16 == 4 => {
            let size = rng.between(100, MOST_SHEET as u32 + 1) as usize;
            sized_sheet(rng, size)
        }
        _ => {
            let (request, mut arcs) = small_request(rng);
            slip(rng, &request, &mut arcs);
            text(&request, &arcs)
        }
    };
    if turn % 8 >= 5 {
        for _ in 0..rng.between(1, 3) {
            damage_sheet(rng, &mut own);
        }
    }
    own
}

/// Request f, vector 9: a track from a camp to itself is read.
pub fn loop_to_read(_: &mut Rng, _: usize) -> ReadSheet {
    ReadSheet {
        sheet: loop_at_one_sheet().into_bytes(),
        room: 4,
    }
}

/// A sheet to read; its room is about what it needs.
pub fn to_read(rng: &mut Rng, turn: usize) -> ReadSheet {
    let sheet = any_sheet(rng, turn);
    let needed = read(&sheet, &mut [0; 2_560]).map_or(8, |(_, words)| words);
    let room = about(rng, needed);
    ReadSheet { sheet, room }
}

/// A request and its arcs to write, with room for so many bytes.
#[derive(Clone)]
pub struct WriteSheet {
    request: Request,
    arcs: Vec<u32>,
    room: usize,
}

impl Case for WriteSheet {
    fn asked(&self) -> Asked {
        Asked {
            op: OP_WRITE,
            request: request_words(&self.request),
            arcs: self.arcs.clone(),
            first: self.room,
            ..Asked::default()
        }
    }

    fn wanted(&self) -> Outcome {
        let mut outcome = Outcome::untouched(&self.asked());
        let answer = write(&self.request, &self.arcs, &mut outcome.first);
        outcome.answer = packed(answer.map(|bytes| bytes as u64));
        outcome
    }

    fn smaller(&self) -> Vec<WriteSheet> {
        let mut found = Vec::new();
        for (request, arcs) in smaller_requests(&self.request, &self.arcs) {
            let room = self.room;
            found.push(WriteSheet {
                request,
                arcs,
                room,
            });
        }
        if self.room > 0 {
            for room in [self.room / 2, self.room - 1] {
                found.push(WriteSheet {
                    room,
                    ..self.clone()
                });
            }
        }
        found
    }

    fn told(&self) -> String {
        format!(
            "write, room for {} bytes: {:?}, arc words {:?}",
            self.room, self.request, self.arcs
        )
    }
}

/// Request f, vector 9: a track from a camp to itself is written.
pub fn loop_to_write(_: &mut Rng, _: usize) -> WriteSheet {
    let (request, arcs) = loop_at_one();
    WriteSheet {
        request,
        arcs,
        room: loop_at_one_sheet().len(),
    }
}

/// A request to write: half of them what some sheet says (so that what was
/// read is written back), the others with values at the limits and past them.
pub fn to_write(rng: &mut Rng, turn: usize) -> WriteSheet {
    let (request, arcs) = match turn % 8 {
        0 | 1 | 4 | 5 => {
            let own = any_sheet(rng, turn);
            let mut arcs = vec![0; 2_560];
            match read(&own, &mut arcs) {
                Ok((request, words)) => {
                    arcs.truncate(words);
                    assert_eq!(text(&request, &arcs), own, "the model's own round trip");
                    (request, arcs)
                }
                Err(_) => small_request(rng),
            }
        }
        2 => listed_request(rng),
        3 if turn % 24 == 3 => large_request(rng),
        _ => edge_request(rng),
    };
    let mut arcs = arcs;
    if rng.one_in(10) && !arcs.is_empty() {
        let k = rng.below(arcs.len());
        arcs[k] = rng.pick(&[9_999_999, 10_000_000, 99_999_999, 100_000_000, u32::MAX]);
    }
    let d_right = request.criteria == 2 || request.criteria == 3;
    let needed = if d_right {
        text(&request, &arcs).len()
    } else {
        40
    };
    let room = about(rng, needed);
    WriteSheet {
        request,
        arcs,
        room,
    }
}
