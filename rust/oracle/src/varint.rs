//! varint.rs, asked in numbers and slices.

use crate::sql::pager::{varint, varint_open};
use crate::{Reply, ask};

/// Value and bytes taken.
pub fn read_u64(buf: &[u8], pos: usize) -> Reply<(u64, usize)> {
    ask(|| varint::read_u64(buf, pos))
}

/// Value and bytes taken.
pub fn read_i64(buf: &[u8], pos: usize) -> Reply<(i64, usize)> {
    ask(|| varint::read_i64(buf, pos))
}

/// The bytes written, and the count that it answers.
pub fn write_u64(value: u64) -> Reply<(Vec<u8>, usize)> {
    ask(|| Ok(written(|out| varint::write_u64(out, value))))
}

/// The bytes written, and the count that it answers.
pub fn write_i64(value: i64) -> Reply<(Vec<u8>, usize)> {
    ask(|| Ok(written(|out| varint::write_i64(out, value))))
}

fn written(write: impl FnOnce(&mut Vec<u8>) -> usize) -> (Vec<u8>, usize) {
    let mut out = Vec::with_capacity(varint::MAX_VARINT_BYTES);
    let count = write(&mut out);
    (out, count)
}

pub fn u64_len(value: u64) -> Reply<usize> {
    ask(|| Ok(varint::u64_len(value)))
}

pub fn i64_len(value: i64) -> Reply<usize> {
    ask(|| Ok(varint::i64_len(value)))
}

/// Private in the original: asked of the copy with accessors (build.rs), which `tests/included.rs` holds to the public functions.
pub fn zigzag_encode(v: i64) -> Reply<u64> {
    ask(|| Ok(varint_open::open_zigzag_encode(v)))
}

pub fn zigzag_decode(v: u64) -> Reply<i64> {
    ask(|| Ok(varint_open::open_zigzag_decode(v)))
}
