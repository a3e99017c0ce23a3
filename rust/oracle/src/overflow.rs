//! The first half of overflow.rs, asked in numbers and slices.

use crate::sql::pager::overflow::{OverflowRef, PagedEntry};
use crate::{Reply, ask};

/// Rowid, total, first page, bytes taken.
pub fn decode(buf: &[u8], pos: usize) -> Reply<(i64, u64, u32, usize)> {
    ask(|| OverflowRef::decode(buf, pos)).map(|(r, bytes)| (r.rowid, r.total_body_len, r.first_overflow_page, bytes))
}

/// The bytes written.
pub fn encode(rowid: i64, total_body_len: u64, first_overflow_page: u32) -> Reply<Vec<u8>> {
    ask(|| Ok(OverflowRef { rowid, total_body_len, first_overflow_page }.encode()))
}

/// Kind, rowid, columns or total, 0 or first page, bytes taken.
pub fn decode_paged(buf: &[u8], pos: usize) -> Reply<(u8, i64, u64, u32, usize)> {
    ask(|| PagedEntry::decode(buf, pos)).map(|(entry, bytes)| match entry {
        PagedEntry::Local(cell) => (1, cell.rowid, cell.values.len() as u64, 0, bytes),
        PagedEntry::Overflow(r) => (2, r.rowid, r.total_body_len, r.first_overflow_page, bytes),
    })
}
