//! Local entries: read whole, asked for a column, and written.

use crate::numbers::Numbers;
use crate::timing::{Table, look};
use oracle_plain::error::Result;
use oracle_plain::sql::db::table::Value;
use oracle_plain::sql::pager::cell::Cell;
use seremonek::ffi;
use std::hint::black_box;

/// Entries of one pass, or as many as take up to this many bytes.
const CALLS: usize = 2048;
const PASS: usize = 1 << 18;

/// Rows of one kind, the same at each run.
struct Rows {
    name: &'static str,
    cells: Vec<Cell>,
}

fn rows(name: &'static str, bytes: usize, row: impl Fn(&mut Numbers) -> Vec<Option<Value>>) -> Rows {
    let mut numbers = Numbers::new();
    let count = CALLS.min(PASS / bytes) as i64;
    Rows { name, cells: (0..count).map(|i| Cell::new(7_000_000 + 3 * i, row(&mut numbers))).collect() }
}

fn text(numbers: &mut Numbers, length: usize) -> Option<Value> {
    let letters = b"abcdefghijklmnopqrstuvwxyz 0123456789-";
    Some(Value::Text((0..length).map(|_| char::from(*numbers.pick(letters))).collect()))
}

fn integer(least: i64, numbers: &mut Numbers, bits: u32) -> Option<Value> {
    Some(Value::Integer(least + numbers.bits(bits) as i64))
}

fn cases_of() -> [Rows; 4] {
    [
        rows("scan row", 64, |numbers| {
            vec![
                integer(0, numbers, 24),
                text(numbers, 12),
                Some(Value::Bool(numbers.bits(1) == 1)),
                Some(Value::Real(numbers.next() as f64 / 1024.0)),
                integer(1_700_000_000, numbers, 20),
            ]
        }),
        rows("one column", 16, |numbers| vec![integer(0, numbers, 16)]),
        // A column is of one kind in all rows; three values of eight are null.
        rows("twenty columns", 128, |numbers| {
            let mut filled = |i: u64| match (numbers.below(8), i % 5) {
                (0..=2, _) => None,
                (_, 0 | 3) => integer(0, numbers, 14),
                (_, 1) => text(numbers, 8),
                (_, 2) => Some(Value::Bool(numbers.bits(1) == 1)),
                _ => Some(Value::Real(i as f64)),
            };
            (0..20).map(&mut filled).collect()
        }),
        rows("text of 1,000", 1024, |numbers| vec![text(numbers, 1000)]),
    ]
}

pub fn cases(table: &mut Table) {
    for rows in cases_of() {
        decode(table, &rows);
    }
    for rows in cases_of() {
        value(table, &rows);
    }
    for rows in cases_of() {
        encode(table, &rows);
    }
}

/// One buffer with the entries one behind the other, and where each starts.
fn buffer(rows: &Rows) -> (Vec<u8>, Vec<usize>) {
    let mut buf = Vec::new();
    let mut places = Vec::new();
    for cell in &rows.cells {
        places.push(buf.len());
        buf.extend(cell.encode().unwrap());
    }
    (buf, places)
}

type OurDecode = unsafe extern "C" fn(*const u8, usize, usize, *mut [u64; 3]) -> u32;
type RustDecode = fn(&[u8], usize) -> Result<(Cell, usize)>;

/// The whole entry is checked, and its head answered; the original answers the values too, in a vector of its own.
fn decode(table: &mut Table, rows: &Rows) {
    let (buf, places) = buffer(rows);
    let ours: OurDecode = black_box(ffi::smk_cell_decode);
    let rust: RustDecode = black_box(Cell::decode);
    table.case(
        &format!("cell_decode {}", rows.name),
        places.len(),
        || {
            for pos in &places {
                let mut answer = [0; 3];
                // SAFETY: a slice with its length, and an array of the declared length.
                if unsafe { ours(buf.as_ptr(), buf.len(), *pos, &mut answer) } == 0 {
                    look(&answer);
                }
            }
        },
        || {
            for pos in &places {
                if let Ok((cell, bytes)) = rust(&buf, *pos) {
                    look(&[cell.rowid as u64, cell.values.len() as u64, bytes as u64]);
                }
            }
        },
    );
}

type OurValue = unsafe extern "C" fn(*const u8, usize, usize, u64, *mut [u64; 3]) -> u32;

/// The value in the last column; the original reads the whole cell and takes it.
fn value(table: &mut Table, rows: &Rows) {
    let (buf, places) = buffer(rows);
    let column = rows.cells[0].values.len() - 1;
    let ours: OurValue = black_box(ffi::smk_cell_value);
    let rust: RustDecode = black_box(Cell::decode);
    table.case(
        &format!("cell_value {}", rows.name),
        places.len(),
        || {
            for pos in &places {
                let mut answer = [0; 3];
                // SAFETY: as above.
                if unsafe { ours(buf.as_ptr(), buf.len(), *pos, column as u64, &mut answer) } == 0 {
                    look(&answer);
                }
            }
        },
        || {
            for pos in &places {
                if let Ok((cell, _)) = rust(&buf, *pos) {
                    let (kind, word, bytes) = parts(&cell.values[column]);
                    look(&[kind.into(), word, bytes.as_ptr() as u64]);
                }
            }
        },
    );
}

pub type OurEncode = unsafe extern "C" fn(i64, *const u8, usize, *const u8, usize, *const u8, usize, *mut u8, usize, *mut [u64; 1]) -> u32;
type RustEncode = fn(&Cell) -> Result<Vec<u8>>;

/// The original makes its bytes in two vectors that grow, and answers one. Ours writes to an output with room for them, from a value list that is there.
fn encode(table: &mut Table, rows: &Rows) {
    let lists: Vec<(Vec<u8>, Vec<u8>, Vec<u8>)> = rows.cells.iter().map(list).collect();
    let mut out = vec![0; 1100];
    let ours: OurEncode = black_box(ffi::smk_cell_encode);
    let rust: RustEncode = black_box(Cell::encode);
    table.case(
        &format!("cell_encode {}", rows.name),
        lists.len(),
        || {
            for (cell, (kinds, words, data)) in rows.cells.iter().zip(&lists) {
                let mut answer = [0; 1];
                // SAFETY: slices with their lengths, of which none overlaps another, and an array of the declared length.
                let number = unsafe {
                    ours(
                        cell.rowid,
                        kinds.as_ptr(),
                        kinds.len(),
                        words.as_ptr(),
                        words.len(),
                        data.as_ptr(),
                        data.len(),
                        out.as_mut_ptr(),
                        out.len(),
                        &mut answer,
                    )
                };
                if number == 0 {
                    look(&answer);
                }
                black_box(out.as_ptr());
            }
        },
        || {
            for cell in &rows.cells {
                if let Ok(bytes) = rust(cell) {
                    look(&[bytes.len() as u64]);
                    black_box(bytes.as_ptr());
                }
            }
        },
    );
}

/// A cell's value list: kinds, words, data.
pub fn list(cell: &Cell) -> (Vec<u8>, Vec<u8>, Vec<u8>) {
    let (mut kinds, mut words, mut data) = (Vec::new(), Vec::new(), Vec::new());
    for value in &cell.values {
        let (kind, word, bytes) = parts(value);
        kinds.push(kind);
        words.extend(word.to_le_bytes());
        data.extend(bytes);
    }
    (kinds, words, data)
}

/// Kind and word of a value, and a text's bytes.
fn parts(value: &Option<Value>) -> (u8, u64, &[u8]) {
    match value {
        Some(Value::Integer(v)) => (0, *v as u64, &[]),
        Some(Value::Real(v)) => (1, v.to_bits(), &[]),
        Some(Value::Text(text)) => (2, text.len() as u64, text.as_bytes()),
        Some(Value::Bool(v)) => (3, u64::from(*v), &[]),
        _ => (255, 0, &[]),
    }
}
