//! Entries: the peeks; a local entry's head and values; writing one.

use crate::{Refusal, ffi};

/// What a local entry says before its values.
#[derive(Clone, Copy, Debug, PartialEq, Eq)]
pub struct Head {
    pub rowid: i64,
    pub columns: u64,
    /// The bytes of the whole entry, its length's own among them.
    pub bytes: usize,
}

/// What stands in a column. Texts and vectors are lent.
#[derive(Clone, Copy, Debug, PartialEq)]
pub enum Value<'a> {
    Null,
    Integer(i64),
    Real(f64),
    Text(&'a str),
    Bool(bool),
    /// Four bytes for each dimension, an f32 with its lowest byte first.
    Vector(&'a [u8]),
}

/// The kind of the entry at `pos`, whatever it is. Refusals 1, 2, 4.
pub fn peek_kind(buf: &[u8], pos: usize) -> Result<u8, Refusal> {
    let mut answer = [0; 1];
    // SAFETY: the pointers come from a slice with its length and from an array, both alive over the call.
    Refusal::of(unsafe { ffi::smk_peek_kind(buf.as_ptr(), buf.len(), pos, &mut answer) })?;
    Ok(answer[0] as u8)
}

/// The rowid of the entry at `pos`, of any kind. Refusals 1, 2, 4.
pub fn peek_rowid(buf: &[u8], pos: usize) -> Result<i64, Refusal> {
    let mut answer = [0; 1];
    // SAFETY: as above.
    Refusal::of(unsafe { ffi::smk_peek_rowid(buf.as_ptr(), buf.len(), pos, &mut answer) })?;
    Ok(answer[0] as i64)
}

/// The bytes of the entry at `pos`, wherever its body ends. Refusals 1, 2, 3.
pub fn encoded_size_at(buf: &[u8], pos: usize) -> Result<u64, Refusal> {
    let mut answer = [0; 1];
    // SAFETY: as above.
    Refusal::of(unsafe { ffi::smk_encoded_size_at(buf.as_ptr(), buf.len(), pos, &mut answer) })?;
    Ok(answer[0])
}

/// Reads the local entry at `pos`, all of it. Refusals 1 to 10.
pub fn decode(buf: &[u8], pos: usize) -> Result<Head, Refusal> {
    let mut answer = [0; 3];
    // SAFETY: as above.
    Refusal::of(unsafe { ffi::smk_cell_decode(buf.as_ptr(), buf.len(), pos, &mut answer) })?;
    Ok(Head { rowid: answer[0] as i64, columns: answer[1], bytes: answer[2] as usize })
}

/// The value in a column, from 0 on, of the local entry at `pos`. Refusals 1 to 10, then 12.
pub fn value(buf: &[u8], pos: usize, column: u64) -> Result<Value<'_>, Refusal> {
    let mut answer = [0; 3];
    // SAFETY: as above.
    Refusal::of(unsafe { ffi::smk_cell_value(buf.as_ptr(), buf.len(), pos, column, &mut answer) })?;
    let [kind, word, place] = answer;
    let bytes = |length: u64| &buf[place as usize..][..length as usize];
    Ok(match kind {
        0 => Value::Integer(word as i64),
        1 => Value::Real(f64::from_bits(word)),
        // SAFETY: a text that the call accepts is well-formed UTF-8; its contract says so.
        2 => Value::Text(unsafe { std::str::from_utf8_unchecked(bytes(word)) }),
        3 => Value::Bool(word != 0),
        4 => Value::Vector(bytes(4 * word)),
        _ => Value::Null,
    })
}

/// A row's values as they are written.
#[derive(Clone, Debug, Default)]
pub struct ValueList {
    kinds: Vec<u8>,
    words: Vec<u8>,
    data: Vec<u8>,
}

impl ValueList {
    pub fn new() -> ValueList {
        ValueList::default()
    }

    /// The list of these values.
    pub fn of(values: &[Value]) -> ValueList {
        let mut list = ValueList::new();
        values.iter().for_each(|value| list.push(*value));
        list
    }

    pub fn clear(&mut self) {
        self.kinds.clear();
        self.words.clear();
        self.data.clear();
    }

    /// One column more. A vector whose bytes are no whole number of fours is refused when it is written.
    pub fn push(&mut self, value: Value) {
        let (kind, word, data): (u8, u64, &[u8]) = match value {
            Value::Null => (255, 0, &[]),
            Value::Integer(v) => (0, v as u64, &[]),
            Value::Real(v) => (1, v.to_bits(), &[]),
            Value::Text(text) => (2, text.len() as u64, text.as_bytes()),
            Value::Bool(v) => (3, u64::from(v), &[]),
            Value::Vector(bytes) => (4, bytes.len() as u64 / 4, bytes),
        };
        self.kinds.push(kind);
        self.words.extend(word.to_le_bytes());
        self.data.extend(data);
    }
}

/// Writes the local entry of `values` at the start of `out`, and answers its bytes. Refusals 25, 15, 16.
pub fn encode(rowid: i64, values: &ValueList, out: &mut [u8]) -> Result<usize, Refusal> {
    let ValueList { kinds, words, data } = values;
    let mut answer = [0; 1];
    // SAFETY: as above, and `out` is lent to this call alone.
    Refusal::of(unsafe {
        ffi::smk_cell_encode(
            rowid,
            kinds.as_ptr(),
            kinds.len(),
            words.as_ptr(),
            words.len(),
            data.as_ptr(),
            data.len(),
            out.as_mut_ptr(),
            out.len(),
            &mut answer,
        )
    })?;
    Ok(answer[0] as usize)
}

/// How many bytes `encode` takes. Refusals 25, 15.
pub fn encoded_len(rowid: i64, values: &ValueList) -> Result<usize, Refusal> {
    let ValueList { kinds, words, data } = values;
    let mut answer = [0; 1];
    // SAFETY: as above.
    Refusal::of(unsafe {
        ffi::smk_cell_encoded_len(rowid, kinds.as_ptr(), kinds.len(), words.as_ptr(), words.len(), data.as_ptr(), data.len(), &mut answer)
    })?;
    Ok(answer[0] as usize)
}
