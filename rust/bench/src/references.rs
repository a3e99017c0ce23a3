//! Overflow references, paged entries and interior cells, read and written.

use crate::cell::{OurEncode, list};
use crate::numbers::Numbers;
use crate::timing::{Table, look};
use oracle_plain::error::Result;
use oracle_plain::sql::db::table::Value;
use oracle_plain::sql::pager::cell::Cell;
use oracle_plain::sql::pager::interior_page::InteriorCell;
use oracle_plain::sql::pager::overflow::{OverflowRef, PagedEntry};
use seremonek::ffi;
use std::hint::black_box;

/// Inputs of one pass.
const CALLS: usize = 4096;

/// A row of a logger's table: rowids that count, totals of some thousands, pages of a small file.
fn small_reference(numbers: &mut Numbers) -> OverflowRef {
    OverflowRef { rowid: numbers.bits(20) as i64, total_body_len: 1023 + numbers.bits(14), first_overflow_page: numbers.bits(12) as u32 }
}

/// Numbers of every size, negative ones too.
fn any_reference(numbers: &mut Numbers) -> OverflowRef {
    OverflowRef { rowid: numbers.sized(64) as i64, total_body_len: numbers.sized(64), first_overflow_page: numbers.sized(32) as u32 }
}

fn small_cell(numbers: &mut Numbers) -> InteriorCell {
    InteriorCell { divider_rowid: numbers.bits(20) as i64, child_page: numbers.bits(12) as u32 }
}

fn any_cell(numbers: &mut Numbers) -> InteriorCell {
    InteriorCell { divider_rowid: numbers.sized(64) as i64, child_page: numbers.sized(32) as u32 }
}

/// A local entry of two integers and a bool, so that neither side's time is a text's.
fn small_local(numbers: &mut Numbers) -> PagedEntry {
    let rowid = numbers.bits(20) as i64;
    let values = vec![
        Some(Value::Integer(numbers.bits(16) as i64)),
        Some(Value::Bool(numbers.bits(1) == 1)),
        None,
        Some(Value::Integer(numbers.bits(24) as i64)),
    ];
    PagedEntry::Local(Cell::new(rowid, values))
}

fn many<T>(make: fn(&mut Numbers) -> T) -> Vec<T> {
    let mut numbers = Numbers::new();
    (0..CALLS).map(|_| make(&mut numbers)).collect()
}

pub fn cases(table: &mut Table) {
    for (name, references) in [("small", many(small_reference)), ("any", many(any_reference))] {
        let encoded: Vec<Vec<u8>> = references.iter().map(OverflowRef::encode).collect();
        read_case(table, &format!("overflow_decode {name}"), &encoded, ffi::smk_overflow_decode, OverflowRef::decode, |r, bytes| {
            [r.rowid as u64, r.total_body_len, u64::from(r.first_overflow_page), bytes]
        });
        let ours: OurReference = black_box(ffi::smk_overflow_encode);
        let rust: fn(&OverflowRef) -> Vec<u8> = black_box(OverflowRef::encode);
        write_case(
            table,
            &format!("overflow_encode {name}"),
            &references,
            // SAFETY: a slice with its length, and an array of the declared length.
            |r, out, answer| unsafe { ours(r.rowid, r.total_body_len, r.first_overflow_page, out.as_mut_ptr(), out.len(), answer) },
            rust,
        );
    }
    let entries = [
        ("references", many(small_reference).into_iter().map(PagedEntry::Overflow).collect::<Vec<_>>()),
        ("any references", many(any_reference).into_iter().map(PagedEntry::Overflow).collect()),
        ("local", many(small_local)),
    ];
    for (name, entries) in entries {
        let encoded: Vec<Vec<u8>> = entries.iter().map(|entry| entry.encode().unwrap()).collect();
        read_case(
            table,
            &format!("entry_decode {name}"),
            &encoded,
            ffi::smk_entry_decode,
            PagedEntry::decode,
            |entry, bytes| match entry {
                PagedEntry::Local(cell) => [1, cell.rowid as u64, cell.values.len() as u64, 0, bytes],
                PagedEntry::Overflow(r) => [2, r.rowid as u64, r.total_body_len, u64::from(r.first_overflow_page), bytes],
            },
        );
        // There is no call that writes either kind: a caller asks for the kind, as the original's writer does.
        let reference: OurReference = black_box(ffi::smk_overflow_encode);
        let local: OurEncode = black_box(ffi::smk_cell_encode);
        let rust: fn(&PagedEntry) -> Result<Vec<u8>> = black_box(PagedEntry::encode);
        let listed = |entry| match &entry {
            PagedEntry::Local(cell) => (list(cell), entry),
            PagedEntry::Overflow(_) => (Default::default(), entry),
        };
        let entries: Vec<_> = entries.into_iter().map(listed).collect();
        write_case(
            table,
            &format!("entry_encode {name}"),
            &entries,
            |((kinds, words, data), entry), out, answer| match entry {
                // SAFETY: as above.
                PagedEntry::Overflow(r) => unsafe {
                    reference(r.rowid, r.total_body_len, r.first_overflow_page, out.as_mut_ptr(), out.len(), answer)
                },
                // SAFETY: slices with their lengths, of which none overlaps another, and an array of the declared length.
                PagedEntry::Local(cell) => unsafe {
                    local(
                        cell.rowid,
                        kinds.as_ptr(),
                        kinds.len(),
                        words.as_ptr(),
                        words.len(),
                        data.as_ptr(),
                        data.len(),
                        out.as_mut_ptr(),
                        out.len(),
                        answer,
                    )
                },
            },
            |(_, entry)| rust(entry).unwrap_or_default(),
        );
    }
    for (name, cells) in [("small", many(small_cell)), ("any", many(any_cell))] {
        let encoded: Vec<Vec<u8>> = cells.iter().map(InteriorCell::encode).collect();
        read_case(
            table,
            &format!("interior_decode {name}"),
            &encoded,
            ffi::smk_interior_cell_decode,
            InteriorCell::decode,
            |cell, bytes| [cell.divider_rowid as u64, u64::from(cell.child_page), bytes],
        );
        let ours: unsafe extern "C" fn(i64, u32, *mut u8, usize, *mut [u64; 1]) -> u32 = black_box(ffi::smk_interior_cell_encode);
        let rust: fn(&InteriorCell) -> Vec<u8> = black_box(InteriorCell::encode);
        write_case(
            table,
            &format!("interior_encode {name}"),
            &cells,
            // SAFETY: as above.
            |cell, out, answer| unsafe { ours(cell.divider_rowid, cell.child_page, out.as_mut_ptr(), out.len(), answer) },
            rust,
        );
    }
}

type OurReference = unsafe extern "C" fn(i64, u64, u32, *mut u8, usize, *mut [u64; 1]) -> u32;
type OurRead<const N: usize> = unsafe extern "C" fn(*const u8, usize, usize, *mut [u64; N]) -> u32;
type RustRead<T> = fn(&[u8], usize) -> Result<(T, usize)>;

/// The entries one behind the other in one buffer, each read at its place.
fn read_case<T, const N: usize>(
    table: &mut Table,
    name: &str,
    entries: &[Vec<u8>],
    ours: OurRead<N>,
    rust: RustRead<T>,
    words: impl Fn(T, u64) -> [u64; N],
) {
    let (ours, rust) = (black_box(ours), black_box(rust));
    let buf = entries.concat();
    let places: Vec<usize> = entries.iter().scan(0, |end, entry| Some(std::mem::replace(end, *end + entry.len()))).collect();
    table.case(
        name,
        places.len(),
        || {
            for pos in &places {
                let mut answer = [0; N];
                // SAFETY: a slice with its length, and an array of the declared length.
                if unsafe { ours(buf.as_ptr(), buf.len(), *pos, &mut answer) } == 0 {
                    look(&answer);
                }
            }
        },
        || {
            for pos in &places {
                if let Ok((entry, bytes)) = rust(&buf, *pos) {
                    look(&words(entry, bytes as u64));
                }
            }
        },
    );
}

/// The original answers a new vector at each call; ours writes to an array of 26 bytes.
fn write_case<T>(
    table: &mut Table,
    name: &str,
    values: &[T],
    ours: impl Fn(&T, &mut [u8; 26], &mut [u64; 1]) -> u32,
    rust: impl Fn(&T) -> Vec<u8>,
) {
    let mut array = [0u8; 26];
    table.case(
        name,
        values.len(),
        || {
            for value in values {
                let mut answer = [0; 1];
                if ours(value, &mut array, &mut answer) == 0 {
                    look(&answer);
                }
                black_box(array.as_ptr());
            }
        },
        || {
            for value in values {
                let bytes = rust(value);
                look(&[bytes.len() as u64]);
                black_box(bytes.as_ptr());
            }
        },
    );
}
