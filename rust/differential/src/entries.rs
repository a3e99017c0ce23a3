//! Entries, put together here anew, so that they lean on neither side.

use crate::inputs::leb_longer;

/// The kinds of document 01.
pub const LOCAL: u8 = 1;
pub const OVERFLOW: u8 = 2;
pub const INTERIOR: u8 = 3;

/// `body` behind its length, in the fewest bytes.
pub fn framed(body: &[u8]) -> Vec<u8> {
    framed_longer(body, 0)
}

/// The same, its length in `longer` more bytes than it needs.
pub fn framed_longer(body: &[u8], longer: usize) -> Vec<u8> {
    [&leb_longer(body.len() as u64, longer)[..], body].concat()
}

/// A local body: rowid and column count as varints in any form; for each column its value block, or none where it is null; bits for the spare places of the bitmap.
pub fn local(rowid: &[u8], count: &[u8], columns: &[Option<Vec<u8>>], spare: u8) -> Vec<u8> {
    let mut map = vec![0u8; columns.len().div_ceil(8)];
    for (column, block) in columns.iter().enumerate() {
        if block.is_none() {
            map[column / 8] |= 1 << (column % 8);
        }
    }
    if columns.len() % 8 != 0 {
        map[columns.len() / 8] |= spare << (columns.len() % 8);
    }
    let blocks: Vec<u8> = columns.iter().flatten().flatten().copied().collect();
    [&[LOCAL][..], rowid, count, &map, &blocks].concat()
}

/// A reference's body, of numbers in any form.
pub fn reference(rowid: &[u8], total: &[u8], first: u32) -> Vec<u8> {
    [&[OVERFLOW][..], rowid, total, &first.to_le_bytes()].concat()
}

/// An interior cell's body, of a divider in any form.
pub fn interior(divider: &[u8], child: u32) -> Vec<u8> {
    [&[INTERIOR][..], divider, &child.to_le_bytes()].concat()
}
