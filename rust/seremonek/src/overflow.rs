//! Overflow references, and paged entries: what stands on a leaf page.

use crate::{Refusal, ffi};

/// What stands on a page for a row that is kept in a chain.
#[derive(Clone, Copy, Debug, PartialEq, Eq)]
pub struct OverflowRef {
    pub rowid: i64,
    /// The bytes that the chain holds.
    pub total: u64,
    pub first_page: u32,
}

/// An entry of a leaf page, by its kind.
#[derive(Clone, Copy, Debug, PartialEq, Eq)]
pub enum PagedEntry {
    Local { rowid: i64, columns: usize },
    Overflow(OverflowRef),
}

impl PagedEntry {
    pub fn rowid(&self) -> i64 {
        match self {
            PagedEntry::Local { rowid, .. } => *rowid,
            PagedEntry::Overflow(reference) => reference.rowid,
        }
    }
}

/// The overflow reference at `pos`, which may be any number, and the bytes it takes. Refusals 1, 2, 3, 5, 6 and 10.
pub fn decode(buf: &[u8], pos: usize) -> Result<(OverflowRef, usize), Refusal> {
    let mut answer = [0; 4];
    // SAFETY: the pointers come from a slice with its length and from an array, both alive over the call.
    Refusal::of(unsafe { ffi::smk_overflow_decode(buf.as_ptr(), buf.len(), pos, &mut answer) })?;
    let [rowid, total, first, bytes] = answer;
    Ok((OverflowRef { rowid: rowid as i64, total, first_page: first as u32 }, bytes as usize))
}

/// Writes `reference` at the start of `out`, in at most 26 bytes, and answers how many. Refusal 16.
pub fn encode(reference: OverflowRef, out: &mut [u8]) -> Result<usize, Refusal> {
    let OverflowRef { rowid, total, first_page } = reference;
    let mut answer = [0; 1];
    // SAFETY: as above, and `out` is lent to this call alone.
    Refusal::of(unsafe { ffi::smk_overflow_encode(rowid, total, first_page, out.as_mut_ptr(), out.len(), &mut answer) })?;
    Ok(answer[0] as usize)
}

/// The local entry or the overflow reference at `pos`, which may be any number, and the bytes it takes. Refusals 1 to 10.
pub fn decode_paged(buf: &[u8], pos: usize) -> Result<(PagedEntry, usize), Refusal> {
    let mut answer = [0; 5];
    // SAFETY: as for `decode`.
    Refusal::of(unsafe { ffi::smk_entry_decode(buf.as_ptr(), buf.len(), pos, &mut answer) })?;
    let [kind, rowid, size, first, bytes] = answer;
    let rowid = rowid as i64;
    let entry = match kind {
        1 => PagedEntry::Local { rowid, columns: size as usize },
        _ => PagedEntry::Overflow(OverflowRef { rowid, total: size, first_page: first as u32 }),
    };
    Ok((entry, bytes as usize))
}
