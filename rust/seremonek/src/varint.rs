//! LEB128 and ZigZag.

use crate::{Refusal, ffi};

/// A number that was read, and how many bytes it took.
#[derive(Clone, Copy, Debug, PartialEq, Eq)]
pub struct Read<T> {
    pub value: T,
    pub bytes: usize,
}

/// The number at `pos`, which may be any number. Refusals 1 and 2.
pub fn read_u64(buf: &[u8], pos: usize) -> Result<Read<u64>, Refusal> {
    let mut answer = [0; 2];
    // SAFETY: the pointers come from a slice with its length and from an array, both alive over the call.
    Refusal::of(unsafe { ffi::smk_read_u64(buf.as_ptr(), buf.len(), pos, &mut answer) })?;
    Ok(Read { value: answer[0], bytes: answer[1] as usize })
}

/// The signed number at `pos`, which may be any number. Refusals 1 and 2.
pub fn read_i64(buf: &[u8], pos: usize) -> Result<Read<i64>, Refusal> {
    let mut answer = [0; 2];
    // SAFETY: as above.
    Refusal::of(unsafe { ffi::smk_read_i64(buf.as_ptr(), buf.len(), pos, &mut answer) })?;
    Ok(Read { value: answer[0] as i64, bytes: answer[1] as usize })
}

/// Writes `value` at the start of `out` in the fewest bytes, and answers how many. Refusal 16.
pub fn write_u64(value: u64, out: &mut [u8]) -> Result<usize, Refusal> {
    let mut answer = [0; 1];
    // SAFETY: as above, and `out` is lent to this call alone.
    Refusal::of(unsafe { ffi::smk_write_u64(value, out.as_mut_ptr(), out.len(), &mut answer) })?;
    Ok(answer[0] as usize)
}

/// Writes the signed `value` at the start of `out` in the fewest bytes, and answers how many. Refusal 16.
pub fn write_i64(value: i64, out: &mut [u8]) -> Result<usize, Refusal> {
    let mut answer = [0; 1];
    // SAFETY: as above.
    Refusal::of(unsafe { ffi::smk_write_i64(value, out.as_mut_ptr(), out.len(), &mut answer) })?;
    Ok(answer[0] as usize)
}

/// How many bytes `write_u64` takes for `value`: 1 to 10.
pub fn u64_len(value: u64) -> usize {
    // SAFETY: numbers alone.
    unsafe { ffi::smk_u64_len(value) as usize }
}

/// How many bytes `write_i64` takes for `value`: 1 to 10.
pub fn i64_len(value: i64) -> usize {
    // SAFETY: numbers alone.
    unsafe { ffi::smk_i64_len(value) as usize }
}

/// 2v for v >= 0, -2v - 1 for v < 0.
pub fn zigzag_encode(v: i64) -> u64 {
    // SAFETY: numbers alone.
    unsafe { ffi::smk_zigzag_encode(v) }
}

/// The number whose ZigZag is `v`.
pub fn zigzag_decode(v: u64) -> i64 {
    // SAFETY: numbers alone.
    unsafe { ffi::smk_zigzag_decode(v) }
}
