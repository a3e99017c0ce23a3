//! The worked numbers of document 01 through the safe bindings.

use seremonek::varint::*;

fn number<T: std::fmt::Debug>(result: Result<T, seremonek::Refusal>) -> u32 {
    result.unwrap_err().number()
}

#[test]
fn worked_numbers() {
    let mut out = [0xEE; 11];
    assert_eq!(write_u64(300, &mut out), Ok(2));
    assert_eq!(out[..3], [0xAC, 0x02, 0xEE]);
    assert_eq!(read_u64(&out, 0), Ok(Read { value: 300, bytes: 2 }));
    assert_eq!(write_u64(16_383, &mut out), Ok(2));
    assert_eq!(out[..3], [0xFF, 0x7F, 0xEE]);
    assert_eq!(write_u64(u64::MAX, &mut out), Ok(10));
    assert_eq!(out, [0xFF, 0xFF, 0xFF, 0xFF, 0xFF, 0xFF, 0xFF, 0xFF, 0xFF, 0x01, 0xEE]);
    assert_eq!(read_u64(&[0x80, 0x80, 0x80, 0x80, 0x80, 0x80, 0x80, 0x80, 0x80, 0x02], 0), Ok(Read { value: 0, bytes: 10 }));
    assert_eq!(number(read_u64(&[0xFF, 0xFF, 0xFF, 0xFF, 0xFF, 0xFF, 0xFF, 0xFF, 0xFF, 0x80], 0)), 2);
    assert_eq!(number(read_u64(&[0x80], 0)), 1);
    assert_eq!(number(read_i64(&[], usize::MAX)), 1);
}

#[test]
fn zigzag_at_both_ends() {
    for (v, u) in [(0, 0), (-1, 1), (-64, 127), (64, 128), (i64::MIN, u64::MAX), (i64::MAX, u64::MAX - 1)] {
        assert_eq!(zigzag_encode(v), u);
        assert_eq!(zigzag_decode(u), v);
        assert_eq!(i64_len(v), u64_len(u));
        let mut out = [0; 10];
        let bytes = write_i64(v, &mut out).unwrap();
        assert_eq!(bytes, i64_len(v));
        assert_eq!(read_i64(&out, 0), Ok(Read { value: v, bytes }));
    }
}

#[test]
fn a_refused_write_keeps_every_byte() {
    let mut out = [0xEE; 9];
    assert_eq!(number(write_u64(u64::MAX, &mut out)), 16);
    assert_eq!(number(write_i64(i64::MIN, &mut out)), 16);
    assert_eq!(out, [0xEE; 9]);
    assert_eq!(number(write_u64(0, &mut [])), 16);
}
