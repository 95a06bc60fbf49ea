//! Worked inputs of document 02's requests.

use super::model::back::{read_back, ReadBack};
use super::model::listing::lister;
use super::model::request::refusal;
use super::model::sheet::{read, write, MOST_SHEET};
use super::model::vectors::{loop_at_one, loop_at_one_sheet, sheets};

/// Request f, vectors 9 and 10: a track from a camp to itself is written and
/// read, and its labels are not read back: "2 to 10" with 17 among them come
/// before 13 and 14.
fn loops() {
    let (request, arcs) = loop_at_one();
    let sheet = loop_at_one_sheet();
    let mut out = [0; MOST_SHEET];
    assert_eq!(write(&request, &arcs, &mut out), Ok(sheet.len()));
    assert_eq!(&out[..sheet.len()], sheet.as_bytes());
    let mut words = [0; 4];
    assert_eq!(read(sheet.as_bytes(), &mut words), Ok((request, 4)));
    assert_eq!(words, arcs[..]);
    assert_eq!(
        read_back(&request, &arcs, &[], 9, 0, 0, &mut []),
        ReadBack::Refused(refusal(17, 0))
    );
}

/// All of them.
pub fn vectors() -> String {
    for (sheet, told) in sheets() {
        assert_eq!(lister(sheet.as_bytes()), told.as_bytes(), "{sheet}");
    }
    loops();
    format!("{} sheets, and the calls", sheets().len())
}
