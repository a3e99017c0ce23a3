//! Varints of each length, and of all lengths mixed.

use crate::numbers::Numbers;
use crate::timing::{Table, look};
use oracle_plain::sql::pager::{varint, varint_open};
use seremonek::ffi;
use std::hint::black_box;

/// Inputs of one pass. Enough that a mix of lengths cannot be learnt by heart.
const CALLS: usize = 8192;

/// Numbers that take `length` bytes, or any length where it is 0; each length as often.
fn values(length: usize) -> Vec<u64> {
    let mut numbers = Numbers::new();
    (0..CALLS)
        .map(|_| {
            let length = if length == 0 { 1 + numbers.below(10) } else { length };
            let low = if length == 1 { 0 } else { 1u64 << (7 * (length - 1)) };
            let high = if length == 10 { u64::MAX } else { (1u64 << (7 * length)) - 1 };
            low + numbers.next() % (high - low).max(1)
        })
        .collect()
}

fn each_length(mut case: impl FnMut(String, Vec<u64>)) {
    for length in 1..=10 {
        case(format!("{length} bytes"), values(length));
    }
    case("mixed".into(), values(0));
}

pub fn cases(table: &mut Table) {
    reads(table);
    writes(table);
    numbers_to_numbers(table);
}

/// One buffer with the numbers one after the other, and where each starts.
fn buffer(values: &[u64]) -> (Vec<u8>, Vec<usize>) {
    let mut buf = Vec::new();
    let mut places = Vec::new();
    for value in values {
        places.push(buf.len());
        varint::write_u64(&mut buf, *value);
    }
    (buf, places)
}

fn reads(table: &mut Table) {
    read_cases(table, "read_u64", ffi::smk_read_u64, varint::read_u64, |value| value);
    read_cases(table, "read_i64", ffi::smk_read_i64, varint::read_i64, |value| value as u64);
}

type OurRead = unsafe extern "C" fn(*const u8, usize, usize, *mut [u64; 2]) -> u32;
type RustRead<T> = fn(&[u8], usize) -> oracle_plain::error::Result<(T, usize)>;

fn read_cases<T>(table: &mut Table, call: &str, ours: OurRead, rust: RustRead<T>, word: impl Fn(T) -> u64) {
    let (ours, rust) = (black_box(ours), black_box(rust));
    each_length(|name, values| {
        let (buf, places) = buffer(&values);
        table.case(
            &format!("{call} {name}"),
            places.len(),
            || {
                for pos in &places {
                    let mut answer = [0; 2];
                    // SAFETY: a slice with its length, and an array of the declared length.
                    if unsafe { ours(buf.as_ptr(), buf.len(), *pos, &mut answer) } == 0 {
                        look(&answer);
                    }
                }
            },
            || {
                for pos in &places {
                    if let Ok((value, bytes)) = rust(&buf, *pos) {
                        look(&[word(value), bytes as u64]);
                    }
                }
            },
        );
    });
}

/// The original pushes onto a vector: it has one with room for ten bytes, cleared before each call and never grown. Ours writes to an array of ten bytes.
fn writes(table: &mut Table) {
    write_cases(table, "write_u64", ffi::smk_write_u64, varint::write_u64, |value| value);
    write_cases(table, "write_i64", ffi::smk_write_i64, varint::write_i64, varint_open::open_zigzag_decode);
}

type OurWrite<T> = unsafe extern "C" fn(T, *mut u8, usize, *mut [u64; 1]) -> u32;
type RustWrite<T> = fn(&mut Vec<u8>, T) -> usize;

/// `of` is the number whose encoding has the length of its argument's.
fn write_cases<T: Copy>(table: &mut Table, call: &str, ours: OurWrite<T>, rust: RustWrite<T>, of: impl Fn(u64) -> T) {
    let (ours, rust) = (black_box(ours), black_box(rust));
    each_length(|name, values| {
        let values: Vec<T> = values.into_iter().map(&of).collect();
        let mut array = [0u8; 10];
        let mut vector = Vec::with_capacity(10);
        table.case(
            &format!("{call} {name}"),
            values.len(),
            || {
                for value in &values {
                    let mut answer = [0; 1];
                    // SAFETY: a slice with its length, and an array of the declared length.
                    if unsafe { ours(*value, array.as_mut_ptr(), array.len(), &mut answer) } == 0 {
                        look(&answer);
                    }
                    black_box(array.as_ptr());
                }
            },
            || {
                for value in &values {
                    vector.clear();
                    look(&[rust(&mut vector, *value) as u64]);
                    black_box(vector.as_ptr());
                }
            },
        );
    });
}

/// Calls from a number to a number: the lengths, and ZigZag both ways.
fn numbers_to_numbers(table: &mut Table) {
    let ours: unsafe extern "C" fn(u64) -> u64 = black_box(ffi::smk_u64_len);
    let rust: fn(u64) -> usize = black_box(varint::u64_len);
    each_length(|name, values| number_case(table, &format!("u64_len {name}"), &values, |v| unsafe { ours(v) }, |v| rust(v) as u64));
    let ours: unsafe extern "C" fn(i64) -> u64 = black_box(ffi::smk_i64_len);
    let rust: fn(i64) -> usize = black_box(varint::i64_len);
    each_length(|name, values| {
        let values: Vec<i64> = values.iter().map(|value| varint_open::open_zigzag_decode(*value)).collect();
        number_case(table, &format!("i64_len {name}"), &values, |v| unsafe { ours(v) }, |v| rust(v) as u64);
    });
    let any = values(0);
    let ours: unsafe extern "C" fn(i64) -> u64 = black_box(ffi::smk_zigzag_encode);
    let rust: fn(i64) -> u64 = black_box(varint_open::open_zigzag_encode);
    let signed: Vec<i64> = any.iter().map(|value| varint_open::open_zigzag_decode(*value)).collect();
    number_case(table, "zigzag_encode", &signed, |v| unsafe { ours(v) }, rust);
    let ours: unsafe extern "C" fn(u64) -> i64 = black_box(ffi::smk_zigzag_decode);
    let rust: fn(u64) -> i64 = black_box(varint_open::open_zigzag_decode);
    number_case(table, "zigzag_decode", &any, |v| unsafe { ours(v) as u64 }, |v| rust(v) as u64);
}

fn number_case<T: Copy>(table: &mut Table, name: &str, values: &[T], ours: impl Fn(T) -> u64, rust: impl Fn(T) -> u64) {
    table.case(
        name,
        values.len(),
        || values.iter().for_each(|value| look(&[ours(*value)])),
        || values.iter().for_each(|value| look(&[rust(*value)])),
    );
}
