//! cell.rs, asked in numbers and slices.

use crate::sql::db::table::Value;
use crate::sql::pager::cell::Cell;
use crate::sql::pager::{decode_value, varint};
use crate::{Reply, ask};

pub fn peek_kind(buf: &[u8], pos: usize) -> Reply<u8> {
    ask(|| Cell::peek_kind(buf, pos))
}

pub fn peek_rowid(buf: &[u8], pos: usize) -> Reply<i64> {
    ask(|| Cell::peek_rowid(buf, pos))
}

pub fn encoded_size_at(buf: &[u8], pos: usize) -> Reply<usize> {
    ask(|| Cell::encoded_size_at(buf, pos))
}

/// The cell, and its bytes.
pub fn decode(buf: &[u8], pos: usize) -> Reply<(Cell, usize)> {
    ask(|| Cell::decode(buf, pos))
}

/// The value in a column of a cell that was decoded from `buf`, with the place in `buf` of a text's or a vector's bytes, 0 for the rest. The original copies those
/// bytes and tells no place: its own reader goes over the entry's value blocks again, and those bytes are the last of their block.
pub fn value_and_place(buf: &[u8], pos: usize, cell: &Cell, column: usize) -> (Option<Value>, usize) {
    let read = |at: usize| varint::read_u64(buf, at).expect("the cell was decoded from here");
    let kind = pos + read(pos).1;
    let count = kind + 1 + read(kind + 1).1;
    let mut at = count + read(count).1 + cell.values.len().div_ceil(8);
    let mut place = 0;
    for value in &cell.values[..=column] {
        place = 0;
        if value.is_some() {
            let (again, bytes) = decode_value(buf, at).expect("the cell was decoded from here");
            at += bytes;
            place = match again {
                Value::Text(text) => at - text.len(),
                Value::Vector(floats) => at - 4 * floats.len(),
                _ => 0,
            };
        }
    }
    (cell.values[column].clone(), place)
}

/// The bytes of the entry.
pub fn encode(rowid: i64, values: Vec<Option<Value>>) -> Reply<Vec<u8>> {
    ask(|| Cell::new(rowid, values).encode())
}

pub fn encoded_len(rowid: i64, values: Vec<Option<Value>>) -> Reply<usize> {
    ask(|| Cell::new(rowid, values).encoded_len())
}
