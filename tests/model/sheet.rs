//! The sheet: its reader and its writer.

use super::fences::Ratio;
use super::request::{refusal, Refusal, Request, MOST_ARCS};

/// "Sheet at most 8,192 bytes."
pub const MOST_SHEET: usize = 8_192;
/// The largest number of 8 digits, of row 11.
pub const MOST_NUMBER: u32 = 99_999_999;

/// One line of a sheet. "a last line without its LF, which counts as a line"
struct Line<'a> {
    bytes: &'a [u8],
    ended: bool,
}

/// "Lines end in LF".
fn lines(sheet: &[u8]) -> Vec<Line<'_>> {
    let mut found = Vec::new();
    let mut start = 0;
    for at in 0..sheet.len() {
        if sheet[at] == b'\n' {
            found.push(Line {
                bytes: &sheet[start..at],
                ended: true,
            });
            start = at + 1;
        }
    }
    if start < sheet.len() {
        found.push(Line {
            bytes: &sheet[start..],
            ended: false,
        });
    }
    found
}

/// "fields are parted by one tab"
fn fields(line: &[u8]) -> Vec<&[u8]> {
    line.split(|&byte| byte == b'\t').collect()
}

/// "A number has 1 to 8 digits and no leading zero, save 0 alone."
fn number(field: &[u8]) -> Option<u32> {
    let length_right = 1 <= field.len() && field.len() <= 8;
    let digits = field.iter().all(|byte| byte.is_ascii_digit());
    if !length_right || !digits || (field[0] == b'0' && field.len() > 1) {
        return None;
    }
    let mut value = 0;
    for &digit in field {
        value = value * 10 + u32::from(digit - b'0');
    }
    Some(value)
}

/// The numbers of a line of exactly `word` and `count` numbers.
fn numbers(line: &[u8], word: &[u8], count: usize) -> Option<Vec<u32>> {
    let found = fields(line);
    if found[0] != word || found.len() != 1 + count {
        return None;
    }
    found[1..].iter().map(|field| number(field)).collect()
}

/// The request and arc words of a sheet in form, else its first bad line.
fn form(sheet: &[u8]) -> Result<(Request, Vec<u32>), usize> {
    let found = lines(sheet);
    let mut nodes = 0;
    let mut d = 0;
    let mut arcs: Vec<u32> = Vec::new();
    let mut asked = None;
    for (at, line) in found.iter().enumerate() {
        let bad = Err(at + 1);
        // "Any line after `ask` is bad, and so is a last line without its LF".
        if asked.is_some() || !line.ended {
            return bad;
        }
        if at == 0 {
            // "Line 1 begins with the six bytes `tracks`, then N and d." "d
            // must be 2 or 3".
            match numbers(line.bytes, b"tracks", 2) {
                Some(head) if head[1] == 2 || head[1] == 3 => {
                    nodes = head[0];
                    d = head[1] as usize;
                }
                _ => return bad,
            }
        } else if let Some(own) = numbers(line.bytes, b"arc", 2 + d) {
            // "a 513th arc breaks the form"
            if arcs.len() / (d + 2) == MOST_ARCS {
                return bad;
            }
            arcs.extend(own);
        } else if let Some(own) = numbers(line.bytes, b"ask", 2 + 2 * (d - 1)) {
            // "source, K, then p and q for each criterion but the last"; "With
            // d = 2 the second ratio reads as 0 over 1."
            let first = Ratio {
                p: own[2],
                q: own[3],
            };
            let second = if d == 3 {
                Ratio {
                    p: own[4],
                    q: own[5],
                }
            } else {
                Ratio { p: 0, q: 1 }
            };
            asked = Some(Request {
                nodes,
                criteria: d as u32,
                source: own[0],
                hops: own[1],
                ratios: [first, second],
            });
        } else {
            return bad;
        }
    }
    // "one more than the lines if the sheet ends before `ask`"
    match asked {
        Some(request) => Ok((request, arcs)),
        None => Err(found.len() + 1),
    }
}

/// The reader: "12, 1, 13 (arc words)", else the request and how many words
/// of the arc buffer were filled.
pub fn read(sheet: &[u8], arcs: &mut [u32]) -> Result<(Request, usize), Refusal> {
    if sheet.len() > MOST_SHEET {
        return Err(refusal(12, 0));
    }
    let (request, own) = form(sheet).map_err(|line| refusal(1, line))?;
    if arcs.len() < own.len() {
        return Err(refusal(13, 1));
    }
    arcs[..own.len()].copy_from_slice(&own);
    Ok((request, own.len()))
}

/// The lines of a sheet as rows of numbers, each with its word: the numbers
/// to be written and no others ("the unused ratio is not written"). Arc words
/// past the last whole arc make a short line.
fn rows(request: &Request, arcs: &[u32]) -> Vec<(&'static str, Vec<u32>)> {
    let d = request.criteria as usize;
    let mut rows = vec![("tracks", vec![request.nodes, request.criteria])];
    for own in arcs.chunks(d + 2) {
        rows.push(("arc", own.to_vec()));
    }
    let mut ask = vec![request.source, request.hops];
    for ratio in &request.ratios[..d - 1] {
        ask.push(ratio.p);
        ask.push(ratio.q);
    }
    rows.push(("ask", ask));
    rows
}

/// The sheet's bytes for d 2 or 3, of any length and with numbers of any size.
pub fn text(request: &Request, arcs: &[u32]) -> Vec<u8> {
    let mut sheet = String::new();
    for (word, numbers) in rows(request, arcs) {
        sheet.push_str(word);
        for number in numbers {
            sheet.push('\t');
            sheet.push_str(&number.to_string());
        }
        sheet.push('\n');
    }
    sheet.into_bytes()
}

/// The writer: "3, 7, 11, 12, 13 (sheet bytes)", else the sheet's length.
pub fn write(request: &Request, arcs: &[u32], sheet: &mut [u8]) -> Result<usize, Refusal> {
    if request.criteria != 2 && request.criteria != 3 {
        return Err(refusal(3, 0));
    }
    let words = request.criteria as usize + 2;
    if arcs.len() % words != 0 || arcs.len() / words > MOST_ARCS {
        return Err(refusal(7, 0));
    }
    // 11: "a number to be written is over 99,999,999".
    for (_, numbers) in rows(request, arcs) {
        if numbers.iter().any(|&number| number > MOST_NUMBER) {
            return Err(refusal(11, 0));
        }
    }
    let own = text(request, arcs);
    if own.len() > MOST_SHEET {
        return Err(refusal(12, 0));
    }
    if sheet.len() < own.len() {
        return Err(refusal(13, 1));
    }
    sheet[..own.len()].copy_from_slice(&own);
    Ok(own.len())
}
