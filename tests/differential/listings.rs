//! The C call: sheets listed, every byte of the listing.

use super::case::{about, Case};
use super::model::listing::{list, sheet_listing};
use super::model::rng::Rng;
use super::pipe::{Asked, Outcome, OP_LIST};
use super::sheets::{any_sheet, smaller_sheets};

/// A sheet to list, with room for so many bytes.
#[derive(Clone)]
pub struct ListSheet {
    sheet: Vec<u8>,
    room: usize,
}

impl Case for ListSheet {
    fn asked(&self) -> Asked {
        Asked {
            op: OP_LIST,
            sheet: self.sheet.clone(),
            first: self.room,
            ..Asked::default()
        }
    }

    fn wanted(&self) -> Outcome {
        let mut outcome = Outcome::untouched(&self.asked());
        outcome.answer = list(&self.sheet, &mut outcome.first);
        outcome
    }

    fn smaller(&self) -> Vec<ListSheet> {
        let room = self.room;
        let mut found = Vec::new();
        for sheet in smaller_sheets(&self.sheet) {
            found.push(ListSheet { sheet, room });
        }
        found
    }

    fn told(&self) -> String {
        format!(
            "list, room for {} bytes, a sheet of {} bytes:\n\"{}\"",
            self.room,
            self.sheet.len(),
            self.sheet.escape_ascii()
        )
    }
}

/// A sheet to list; its room is about what its listing needs.
pub fn to_list(rng: &mut Rng, turn: usize) -> ListSheet {
    let sheet = any_sheet(rng, turn);
    let needed = sheet_listing(&sheet).map_or(8, |own| own.len());
    let room = about(rng, needed);
    ListSheet { sheet, room }
}
