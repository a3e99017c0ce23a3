//! Interior cells: the dividers of an interior page.

use crate::{Refusal, ffi};

/// Rowids up to `divider` live under `child`.
#[derive(Clone, Copy, Debug, PartialEq, Eq)]
pub struct InteriorCell {
    pub divider: i64,
    pub child: u32,
}

/// The interior cell at `pos`, which may be any number, and the bytes it takes. Refusals 1, 2, 3, 5, 6 and 10.
pub fn decode(buf: &[u8], pos: usize) -> Result<(InteriorCell, usize), Refusal> {
    let mut answer = [0; 3];
    // SAFETY: the pointers come from a slice with its length and from an array, both alive over the call.
    Refusal::of(unsafe { ffi::smk_interior_cell_decode(buf.as_ptr(), buf.len(), pos, &mut answer) })?;
    let [divider, child, bytes] = answer;
    Ok((InteriorCell { divider: divider as i64, child: child as u32 }, bytes as usize))
}

/// Writes `cell` at the start of `out`, in at most 16 bytes, and answers how many. Refusal 16.
pub fn encode(cell: InteriorCell, out: &mut [u8]) -> Result<usize, Refusal> {
    let mut answer = [0; 1];
    // SAFETY: as above, and `out` is lent to this call alone.
    Refusal::of(unsafe { ffi::smk_interior_cell_encode(cell.divider, cell.child, out.as_mut_ptr(), out.len(), &mut answer) })?;
    Ok(answer[0] as usize)
}
