//! Text: well-formed UTF-8.

use crate::{Refusal, ffi};

/// Whether all of `bytes` is text. Refusal 8.
pub fn check(bytes: &[u8]) -> Result<(), Refusal> {
    // SAFETY: the pointer comes from a slice with its length, alive over the call.
    Refusal::of(unsafe { ffi::smk_utf8_check(bytes.as_ptr(), bytes.len()) })
}

/// `bytes` as the text that they are. Refusal 8.
pub fn text(bytes: &[u8]) -> Result<&str, Refusal> {
    check(bytes)?;
    // SAFETY: what the call accepts is well-formed UTF-8; its contract is that equation.
    Ok(unsafe { std::str::from_utf8_unchecked(bytes) })
}
