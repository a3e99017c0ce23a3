//! The cells of interior_page.rs, asked in numbers and slices.

use crate::sql::pager::interior_page::InteriorCell;
use crate::{Reply, ask};

/// Divider, child, bytes taken.
pub fn decode_cell(buf: &[u8], pos: usize) -> Reply<(i64, u32, usize)> {
    ask(|| InteriorCell::decode(buf, pos)).map(|(cell, bytes)| (cell.divider_rowid, cell.child_page, bytes))
}

/// The bytes written.
pub fn encode_cell(divider_rowid: i64, child_page: u32) -> Reply<Vec<u8>> {
    ask(|| Ok(InteriorCell { divider_rowid, child_page }.encode()))
}
