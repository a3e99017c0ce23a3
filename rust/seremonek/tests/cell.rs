//! Entries of document 01 through the safe bindings.

use seremonek::cell::*;

fn number<T: std::fmt::Debug>(result: Result<T, seremonek::Refusal>) -> u32 {
    result.unwrap_err().number()
}

/// Rowid 1, Integer 5, null, Text A, Bool true.
const STARRED: [u8; 12] = [0x0B, 0x01, 0x02, 0x04, 0x02, 0x00, 0x0A, 0x02, 0x01, 0x41, 0x03, 0x01];

#[test]
fn the_starred_entry() {
    assert_eq!(peek_kind(&STARRED, 0), Ok(1));
    assert_eq!(peek_rowid(&STARRED, 0), Ok(1));
    assert_eq!(encoded_size_at(&STARRED, 0), Ok(12));
    assert_eq!(decode(&STARRED, 0), Ok(Head { rowid: 1, columns: 4, bytes: 12 }));
    let values = [Value::Integer(5), Value::Null, Value::Text("A"), Value::Bool(true)];
    for (column, expected) in values.iter().enumerate() {
        assert_eq!(value(&STARRED, 0, column as u64), Ok(*expected));
    }
    assert_eq!(number(value(&STARRED, 0, 4)), 12);
    assert_eq!(number(decode(&STARRED[..11], 0)), 3);
    assert_eq!(number(peek_kind(&STARRED, 12)), 1);

    let list = ValueList::of(&values);
    assert_eq!(encoded_len(1, &list), Ok(12));
    let mut out = [0xEE; 13];
    assert_eq!(number(encode(1, &list, &mut out[..11])), 16);
    assert_eq!(out, [0xEE; 13]);
    assert_eq!(encode(1, &list, &mut out), Ok(12));
    assert_eq!(out[..12], STARRED);
    assert_eq!(out[12], 0xEE);
}

#[test]
fn every_kind_of_value_comes_back() {
    let nan = f64::from_bits(0xFFF0_0000_0000_0001);
    let vector: Vec<u8> = [1.5f32, -0.0, f32::INFINITY].iter().flat_map(|x| x.to_le_bytes()).collect();
    let values = [
        Value::Vector(&vector),
        Value::Integer(i64::MIN),
        Value::Real(nan),
        Value::Text(""),
        Value::Null,
        Value::Text("Zażółć gęślą jaźń"),
        Value::Bool(false),
        Value::Vector(&[]),
        Value::Real(-0.0),
    ];
    let list = ValueList::of(&values);
    let mut buf = vec![0x99; 200];
    let bytes = encode(i64::MAX, &list, &mut buf[3..]).unwrap();
    assert_eq!(encoded_len(i64::MAX, &list), Ok(bytes));
    assert_eq!(decode(&buf, 3), Ok(Head { rowid: i64::MAX, columns: 9, bytes }));
    for (column, expected) in values.iter().enumerate() {
        match (value(&buf, 3, column as u64).unwrap(), *expected) {
            (Value::Real(a), Value::Real(b)) => assert_eq!(a.to_bits(), b.to_bits()),
            (a, b) => assert_eq!(a, b),
        }
    }
}

#[test]
fn a_vector_of_no_whole_floats_is_refused() {
    let mut list = ValueList::of(&[Value::Vector(&[1, 2, 3, 4, 5]), Value::Text("ab")]);
    assert_eq!(number(encoded_len(0, &list)), 15);
    list.clear();
    list.push(Value::Vector(&[1, 2, 3, 4]));
    assert_eq!(encoded_len(0, &list), Ok(11));
}
