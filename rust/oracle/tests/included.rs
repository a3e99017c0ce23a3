//! What is included is the original, built as it is to be asked.
#![cfg(not(oracle_missing))]

use oracle::Reply;
use oracle::sql::pager::{cell, page, varint};

/// Overflow checks are on for the included files: this sum passes the machine word in the original, and wraps where they are off.
#[test]
fn an_overflow_is_outside_the_domain() {
    let mut entry = Vec::new();
    varint::write_u64(&mut entry, u64::MAX);
    assert_eq!(oracle::ask(|| cell::Cell::encoded_size_at(&entry, 0)), Reply::Outside);
    entry.clear();
    varint::write_u64(&mut entry, u64::MAX - 10);
    assert_eq!(oracle::ask(|| cell::Cell::encoded_size_at(&entry, 0)), Reply::Accepted(usize::MAX));
}

/// The smallest inputs of docs/DIFFERENCES.md on which the original panics: an entry's size, a vector's end and a text's end that pass the machine word.
#[test]
fn the_smallest_inputs_outside_the_domain() {
    let size = [0xF6, 0xFF, 0xFF, 0xFF, 0xFF, 0xFF, 0xFF, 0xFF, 0xFF, 0x01];
    assert_eq!(oracle::ask(|| cell::Cell::encoded_size_at(&size, 0)), Reply::Outside);
    let vector = [0x0E, 0x01, 0x00, 0x01, 0x00, 0x04, 0x80, 0x80, 0x80, 0x80, 0x80, 0x80, 0x80, 0x80, 0x40];
    assert_eq!(oracle::ask(|| cell::Cell::decode(&vector, 0)), Reply::Outside);
    let text = [0x0F, 0x01, 0x00, 0x01, 0x00, 0x02, 0xFF, 0xFF, 0xFF, 0xFF, 0xFF, 0xFF, 0xFF, 0xFF, 0xFF, 0x01];
    assert_eq!(oracle::ask(|| cell::Cell::decode(&text, 0)), Reply::Outside);
}

/// The copy that `bench` times has none in a release build, as a service would run it: there the same sum wraps.
#[test]
fn the_timed_copy_has_no_overflow_checks_in_release() {
    let mut entry = Vec::new();
    varint::write_u64(&mut entry, u64::MAX);
    let reply = oracle_plain::ask(|| oracle_plain::sql::pager::cell::Cell::encoded_size_at(&entry, 0));
    let expected = if cfg!(debug_assertions) { oracle_plain::Reply::Outside } else { oracle_plain::Reply::Accepted(9) };
    assert_eq!(reply, expected);
}

/// Asked in the build that `differential` and `record` ask in: the Makefile runs these tests in release.
#[test]
fn the_three_ways_to_end() {
    assert_eq!(oracle::varint::read_u64(&[0xAC, 0x02], 0), Reply::Accepted((300, 2)));
    assert_eq!(oracle::varint::read_u64(&[0x80], 0), Reply::Refused(1));
    assert_eq!(oracle::varint::read_i64(&[0xFF; 11], 1), Reply::Refused(2));
    assert_eq!(oracle::varint::read_u64(&[], usize::MAX), Reply::Refused(1));
    assert_eq!(oracle::ask::<()>(|| panic!("quiet")), Reply::Outside);
}

/// The copy of varint.rs with accessors says what the included file says through its public functions.
#[test]
fn accessors_agree_with_the_public_functions() {
    for shift in 0..64 {
        for near in [-2i64, -1, 0, 1, 2] {
            let v = (1i64 << shift).wrapping_add(near);
            for v in [v, v.wrapping_neg(), !v] {
                let mut out = Vec::new();
                varint::write_i64(&mut out, v);
                let (u, _) = varint::read_u64(&out, 0).unwrap();
                assert_eq!(oracle::varint::zigzag_encode(v), Reply::Accepted(u));
                assert_eq!(oracle::varint::zigzag_decode(u), Reply::Accepted(v));
            }
        }
    }
}

#[test]
fn the_numbers_that_document_01_gives_of_pages() {
    assert_eq!(page::PAYLOAD_PER_PAGE, 4089);
    assert_eq!(page::PageType::Overflow as u8, 3);
    assert_eq!(oracle::sql::pager::overflow::OVERFLOW_THRESHOLD, 1022);
}
