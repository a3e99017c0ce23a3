//! cell.rs: the peeks; local entries read, asked by column, and written.

use crate::entries::{self, LOCAL, framed, framed_longer};
use crate::frame::{Call, Comparison, Expected, Input, Layer, Lent, Part, expect, expect_written};
use crate::inputs::{self, ALL, leb};
use crate::random::Random;
use Part::{Bytes, Number, Output};
use oracle::Reply;
use oracle::sql::db::table::Value;
use seremonek::ffi;

pub const LAYER: Layer = Layer { name: "cell", calls: CALLS, compare, sample };

const CALLS: &[Call] = &[
    Call {
        name: "smk_peek_kind",
        parts: &[Bytes, Number],
        values: 1,
        answers: &[0, 1, 2, 4],
        rust: |input| expect(oracle::cell::peek_kind(input.bytes[0], pos(input)), None, |kind| Expected::accepted(&[kind.into()])),
        ours: |lent| unsafe { ffi::smk_peek_kind(lent.bytes[0].as_ptr(), lent.bytes[0].len(), lent.numbers[0] as usize, lent.answer()) },
    },
    Call {
        name: "smk_peek_rowid",
        parts: &[Bytes, Number],
        values: 1,
        answers: &[0, 1, 2, 4],
        rust: |input| expect(oracle::cell::peek_rowid(input.bytes[0], pos(input)), None, |rowid| Expected::accepted(&[rowid as u64])),
        ours: |lent| unsafe { ffi::smk_peek_rowid(lent.bytes[0].as_ptr(), lent.bytes[0].len(), lent.numbers[0] as usize, lent.answer()) },
    },
    Call {
        name: "smk_encoded_size_at",
        parts: &[Bytes, Number],
        values: 1,
        answers: &[0, 1, 2, 3],
        // The original's sum passes the machine word where document 01 says 3.
        rust: |input| expect(oracle::cell::encoded_size_at(input.bytes[0], pos(input)), Some(3), |size| Expected::accepted(&[size as u64])),
        ours: |lent| unsafe {
            ffi::smk_encoded_size_at(lent.bytes[0].as_ptr(), lent.bytes[0].len(), lent.numbers[0] as usize, lent.answer())
        },
    },
    Call {
        name: "smk_cell_decode",
        parts: &[Bytes, Number],
        values: 3,
        answers: &[0, 1, 2, 3, 4, 5, 6, 7, 8, 9, 10],
        // The end of a text or of a vector passes the machine word: document 01 says 7.
        rust: |input| {
            expect(oracle::cell::decode(input.bytes[0], pos(input)), Some(7), |(cell, bytes)| {
                Expected::accepted(&[cell.rowid as u64, cell.values.len() as u64, bytes as u64])
            })
        },
        ours: |lent| unsafe { ffi::smk_cell_decode(lent.bytes[0].as_ptr(), lent.bytes[0].len(), lent.numbers[0] as usize, lent.answer()) },
    },
    Call {
        name: "smk_cell_value",
        parts: &[Bytes, Number, Number],
        values: 3,
        answers: &[0, 1, 2, 3, 4, 5, 6, 7, 8, 9, 10, 12],
        rust: |input| {
            let (buf, pos, column) = (input.bytes[0], pos(input), input.numbers[1]);
            expect(oracle::cell::decode(buf, pos), Some(7), |(cell, _)| {
                if column >= cell.values.len() as u64 {
                    return Expected::refused(12);
                }
                let (value, place) = oracle::cell::value_and_place(buf, pos, &cell, column as usize);
                let (kind, word) = kind_and_word(&value);
                Expected::accepted(&[kind.into(), word, place as u64])
            })
        },
        ours: |lent| unsafe {
            ffi::smk_cell_value(lent.bytes[0].as_ptr(), lent.bytes[0].len(), lent.numbers[0] as usize, lent.numbers[1], lent.answer())
        },
    },
    Call {
        name: "smk_cell_encode",
        parts: &[Number, Bytes, Bytes, Bytes, Output],
        values: 1,
        answers: &[0, 25, 15, 27, 8, 16],
        rust: |input| {
            let reply = listed(input, |values| oracle::cell::encode(input.numbers[0] as i64, values));
            expect(reply, None, |bytes| {
                let count = bytes.len() as u64;
                expect_written(bytes, input, &[count])
            })
        },
        ours: |lent| {
            let Lent { numbers, bytes: [kinds, words, data], .. } = *lent;
            unsafe {
                ffi::smk_cell_encode(
                    numbers[0] as i64,
                    kinds.as_ptr(),
                    kinds.len(),
                    words.as_ptr(),
                    words.len(),
                    data.as_ptr(),
                    data.len(),
                    lent.outputs[0].as_mut_ptr(),
                    lent.outputs[0].len(),
                    lent.answer(),
                )
            }
        },
    },
    Call {
        name: "smk_cell_encoded_len",
        parts: &[Number, Bytes, Bytes, Bytes],
        values: 1,
        answers: &[0, 25, 15, 27, 8],
        rust: |input| {
            let reply = listed(input, |values| oracle::cell::encoded_len(input.numbers[0] as i64, values));
            expect(reply, None, |length| Expected::accepted(&[length as u64]))
        },
        ours: |lent| {
            let Lent { numbers, bytes: [kinds, words, data], .. } = *lent;
            unsafe {
                ffi::smk_cell_encoded_len(
                    numbers[0] as i64,
                    kinds.as_ptr(),
                    kinds.len(),
                    words.as_ptr(),
                    words.len(),
                    data.as_ptr(),
                    data.len(),
                    lent.answer(),
                )
            }
        },
    },
];

const READERS: [&str; 5] = ["smk_peek_kind", "smk_peek_rowid", "smk_encoded_size_at", "smk_cell_decode", "smk_cell_value"];
const DECODE: &str = "smk_cell_decode";
const VALUE: &str = "smk_cell_value";
const WRITERS: [&str; 2] = ["smk_cell_encode", "smk_cell_encoded_len"];

fn pos(input: &Input) -> usize {
    input.numbers[0] as usize
}

fn reading(buf: &[u8], pos: usize, column: u64) -> Input<'_> {
    Input { bytes: [buf, &[], &[]], numbers: [pos as u64, column, 0, 0], ..Input::default() }
}

/// Document 01's kind and word of a value.
fn kind_and_word(value: &Option<Value>) -> (u8, u64) {
    match value {
        None => (255, 0),
        Some(Value::Integer(v)) => (0, *v as u64),
        Some(Value::Real(v)) => (1, v.to_bits()),
        Some(Value::Text(text)) => (2, text.len() as u64),
        Some(Value::Bool(v)) => (3, u64::from(*v)),
        Some(Value::Vector(floats)) => (4, floats.len() as u64),
        Some(Value::Null) => (5, 0),
    }
}

// ---- value lists, as document 01 has them

/// What the original says to the values of a list. It takes none: where document 01 refuses the list before it, that number. At a `Value::Null` inside a value the
/// columns before it go to the original with it, and the refusal is the original's.
fn listed<T>(input: &Input, ask: impl FnOnce(Vec<Option<Value>>) -> Reply<T>) -> Reply<T> {
    const MOST: usize = 65_536;
    let [kinds, words, data] = input.bytes;
    if words.len() % 8 != 0 || kinds.len() > MOST || words.len() / 8 > MOST || data.len() > 16 << 20 {
        return Reply::Refused(25);
    }
    if kinds.len() != words.len() / 8 {
        return Reply::Refused(15);
    }
    let mut values = Vec::new();
    let mut rest = data;
    for (kind, word) in kinds.iter().zip(words.chunks_exact(8)) {
        let word = u64::from_le_bytes(word.try_into().unwrap());
        match column(*kind, word, &mut rest) {
            Ok(Some(Value::Null)) => {
                values.push(Some(Value::Null));
                return ask(values);
            }
            Ok(value) => values.push(value),
            Err(number) => return Reply::Refused(number),
        }
    }
    if !rest.is_empty() {
        return Reply::Refused(15);
    }
    ask(values)
}

fn column(kind: u8, word: u64, rest: &mut &[u8]) -> Result<Option<Value>, u32> {
    let mut taken = |bytes: u128| -> Result<&[u8], u32> {
        if (rest.len() as u128) < bytes {
            return Err(15);
        }
        let (taken, left) = rest.split_at(bytes as usize);
        *rest = left;
        Ok(taken)
    };
    Ok(match (kind, word) {
        (0, _) => Some(Value::Integer(word as i64)),
        (1, _) => Some(Value::Real(f64::from_bits(word))),
        (2, _) => Some(Value::Text(String::from_utf8(taken(word.into())?.to_vec()).map_err(|_| 8u32)?)),
        (3, 0 | 1) => Some(Value::Bool(word == 1)),
        (4, _) => {
            let bytes = taken(4 * u128::from(word))?;
            Some(Value::Vector(bytes.chunks_exact(4).map(|four| f32::from_le_bytes(four.try_into().unwrap())).collect()))
        }
        (5, _) => Some(Value::Null),
        (255, 0) => None,
        _ => return Err(15),
    })
}

/// A value list: kinds, words, data.
#[derive(Clone, Default)]
struct List {
    kinds: Vec<u8>,
    words: Vec<u8>,
    data: Vec<u8>,
}

impl List {
    fn push(&mut self, kind: u8, word: u64, data: &[u8]) {
        self.kinds.push(kind);
        self.words.extend(word.to_le_bytes());
        self.data.extend(data);
    }

    fn of(columns: &[(u8, u64, &[u8])]) -> List {
        let mut list = List::default();
        columns.iter().for_each(|(kind, word, data)| list.push(*kind, *word, data));
        list
    }

    /// At least as many bytes as its entry takes.
    fn most(&self) -> usize {
        8 + self.kinds.len().div_ceil(8) + 11 * self.kinds.iter().filter(|kind| **kind != 255).count() + self.data.len()
    }

    fn writing<'a>(&'a self, rowid: i64, output: &'a [u8]) -> Input<'a> {
        Input { numbers: [rowid as u64, 0, 0, 0], bytes: [&self.kinds, &self.words, &self.data], outputs: [output, &[]] }
    }
}

// ---- entries of lists

/// How entries are made: with the fewest bytes and no spare bits, or with all that a reader takes.
#[derive(Clone, Copy, PartialEq)]
enum Form {
    Plain,
    Loose,
}

const TEXTS: [&str; 10] = [
    "",
    "A",
    "part 17-b",
    "sensor 0042",
    "Łódź",
    "日本",
    "🚀",
    "x\u{7FF}\u{800}",
    "twelve bytes",
    "a text that is longer than four words of eight",
];

const REALS: [u64; 10] = [
    0,
    0x8000_0000_0000_0000,
    0x3FF0_0000_0000_0000,
    0x7FF0_0000_0000_0000,
    0xFFF0_0000_0000_0000,
    0x7FF0_0000_0000_0001,
    0x7FF8_0000_0000_0000,
    0xFFF8_0000_0000_0001,
    0x7FFF_FFFF_FFFF_FFFF,
    0xFFFF_FFFF_FFFF_FFFF,
];

/// A row: a rowid, and the columns of its value list. All kinds of values that there are, and no null inside a value.
fn some_list(columns: usize, random: &mut Random) -> List {
    let mut list = List::default();
    for _ in 0..columns {
        match random.below(8) {
            0 | 1 => list.push(0, inputs::signed_like(random.number()), &[]),
            2 => {
                let bits = if random.below(2) == 0 { *random.pick(&REALS) } else { random.next() };
                list.push(1, bits, &[]);
            }
            3 => {
                let text = random.pick(&TEXTS);
                list.push(2, text.len() as u64, text.as_bytes());
            }
            4 => list.push(3, random.below(2), &[]),
            5 => {
                let dimension = random.below(5);
                list.push(4, dimension, &random.bytes(4 * dimension as usize));
            }
            _ => list.push(255, 0, &[]),
        }
    }
    list
}

/// A row without vectors whose texts are ASCII, short and of every length: it is measured by words that no column is branched on for.
fn common_list(columns: usize, random: &mut Random) -> List {
    let mut list = List::default();
    for _ in 0..columns {
        match random.below(8) {
            0 | 1 => list.push(0, inputs::signed_like(random.number()), &[]),
            2 => list.push(1, random.next(), &[]),
            3 | 4 => {
                let text = ascii(random.below(24) as usize, random);
                list.push(2, text.len() as u64, &text);
            }
            5 => list.push(3, random.below(2), &[]),
            _ => list.push(255, 0, &[]),
        }
    }
    list
}

fn ascii(length: usize, random: &mut Random) -> Vec<u8> {
    (0..length).map(|_| random.byte() & 0x7F).collect()
}

/// The body of a row.
fn body(rowid: i64, list: &List, form: Form, random: &mut Random) -> Vec<u8> {
    let number = |value: u64, random: &mut Random| {
        let longer = if form == Form::Loose && random.below(3) == 0 { random.below(4) as usize } else { 0 };
        inputs::leb_longer(value, longer)
    };
    let columns = list.kinds.len();
    let rowid = number(inputs::zigzag(rowid), random);
    let count = number(columns as u64, random);
    let spare = if form == Form::Loose && columns % 8 != 0 { random.byte() } else { 0 };
    let mut data = &list.data[..];
    let mut block = |kind: u8, word: u64| {
        let mut block = vec![kind];
        match kind {
            0 => block.extend(number(inputs::zigzag(word as i64), random)),
            1 => block.extend(word.to_le_bytes()),
            3 if form == Form::Loose && word == 1 => block.push(random.byte() | 1 << random.below(8)),
            3 => block.push(word as u8),
            _ => {
                let (taken, rest) = data.split_at(if kind == 2 { word as usize } else { 4 * word as usize });
                data = rest;
                block.extend(number(word, random));
                block.extend(taken);
            }
        }
        block
    };
    let words = list.words.chunks_exact(8).map(|word| u64::from_le_bytes(word.try_into().unwrap()));
    let blocks: Vec<_> = list.kinds.iter().zip(words).map(|(kind, word)| (*kind != 255).then(|| block(*kind, word))).collect();
    entries::local(&rowid, &count, &blocks, spare)
}

/// The starred entry of document 01: rowid 1, Integer 5, null, Text A, Bool true.
const STARRED: [u8; 12] = [0x0B, 0x01, 0x02, 0x04, 0x02, 0x00, 0x0A, 0x02, 0x01, 0x41, 0x03, 0x01];

/// Bodies that reach each refusal and stand on either side of what decides: with the number of columns that their count says.
fn telling_bodies() -> Vec<(Vec<u8>, u64)> {
    let mut bodies: Vec<(Vec<u8>, u64)> = vec![
        (vec![], 0),
        (vec![1, 0, 0], 0),
        (vec![1, 0, 0, 0], 0),
        (vec![2, 0, 0], 0),
        (vec![0, 0, 0], 0),
        (vec![3, 0, 0], 0),
        (vec![255, 0, 0], 0),
        (vec![1], 0),
        (vec![1, 0x80], 0),
        (vec![1, 0], 0),
        (vec![1, 0, 0x80], 0),
        (vec![1, 0, 1], 1),
        (vec![1, 0, 9, 0xFF], 9),
        (vec![1, 0, 9, 0xFF, 0xFF], 9),
        (vec![1, 0, 8, 0xFF], 8),
        (vec![1, 0, 8, 0x7F], 8),
        (vec![1, 0, 1, 0x01], 1),
        (vec![1, 0, 1, 0xFF], 1),
        (vec![1, 0, 1, 0xFE, 3, 0], 1),
        (vec![1, 0, 1, 0x00], 1),
        ([&[1][..], &[0xFF; 10], &[0]].concat(), 0),
        ([&[1, 0][..], &[0xFF; 10]].concat(), 0),
        ([&[1, 0, 1, 0, 0][..], &[0xFF; 10]].concat(), 1),
    ];
    // Counts that no bitmap of the body holds.
    for count in inputs::limits().into_iter().filter(|count| *count > 8) {
        bodies.push(([&[1, 0][..], &leb(count)].concat(), count));
        bodies.push(([&[1, 0][..], &leb(count), &[0xFF; 2]].concat(), count));
    }
    // One column: each tag with what it stands before, whole, cut at every place, and with a byte too many.
    let blocks: [&[u8]; 15] = [
        &[0, 0],
        &[0, 0x80, 0x01],
        &[0, 0xFF, 0xFF, 0xFF, 0xFF, 0xFF, 0xFF, 0xFF, 0xFF, 0xFF, 0x01],
        &[1, 0x01, 0, 0, 0, 0, 0, 0xF0, 0x7F],
        &[2, 0],
        &[2, 0x81, 0x00, 0x41],
        &[2, 3, 0xE2, 0x82, 0xAC],
        &[2, 3, 0xED, 0xA0, 0x80],
        &[2, 2, 0xC0, 0x80],
        &[3, 0],
        &[3, 0xFF],
        &[4, 0],
        &[4, 2, 0, 0, 0x80, 0x7F, 1, 0, 0xC0, 0xFF],
        &[5, 0],
        &[255, 0],
    ];
    for block in blocks {
        let whole = [&[1, 0x7F, 1, 0][..], block, &[0]].concat();
        (4..=whole.len()).for_each(|end| bodies.push((whole[..end].to_vec(), 1)));
    }
    // Lengths and dimensions of every size.
    for tag in [2, 4] {
        for length in inputs::limits() {
            bodies.push(([&[1, 0, 1, 0, tag][..], &leb(length), b"abcdefgh"].concat(), 1));
        }
    }
    bodies
}

fn compare(run: &mut Comparison) {
    peeks(run);
    bodies(run);
    rows(run);
    writers(run);
}

fn peeks(run: &mut Comparison) {
    let places = READERS.map(|name| run.place(name));
    for length in inputs::limits() {
        for longer in 0..3 {
            let whole = [vec![0xDB; 2], inputs::leb_longer(length, longer), vec![1, 0x83, 0x02, 0]].concat();
            for end in 2..=whole.len() {
                places.iter().for_each(|place| run.check(*place, &reading(&whole[..end], 2, 0)));
            }
        }
    }
    for rowid in inputs::limits() {
        let body = [&[1][..], &leb(rowid), &[0]].concat();
        for end in 0..=body.len() {
            let entry = framed(&body[..end]);
            places.iter().for_each(|place| run.check(*place, &reading(&entry, 0, 0)));
        }
    }
    // Lengths and rowids that do not end.
    for tenth in [0x00, 0x7F, 0x80, 0xFF] {
        let ten = [&run.random.bytes(9).iter().map(|byte| byte | 0x80).collect::<Vec<u8>>()[..], &[tenth]].concat();
        for whole in [[&ten[..], &[1, 0, 0]].concat(), [&[0x0C, 0x01][..], &ten, &[0]].concat()] {
            for end in 0..=whole.len() {
                places.iter().for_each(|place| run.check(*place, &reading(&whole[..end], 0, 0)));
            }
        }
    }
    // No entry is as short as these, so there is no column behind the first to ask for.
    inputs::every_short(run.long(), |buf, pos| places.iter().for_each(|place| run.check(*place, &reading(buf, pos, 0))));
}

/// Bodies up to four bytes behind a right length, and longer ones whose first bytes lead to the columns.
fn bodies(run: &mut Comparison) {
    let (decode, value) = (run.place(DECODE), run.place(VALUE));
    // Every entry is asked for its first column; one that is accepted for all others too, and for the one behind the last.
    let whole = |run: &mut Comparison, entry: &[u8]| {
        run.check(value, &reading(entry, 0, 0));
        if let Some([_, columns, ..]) = run.answered(decode, &reading(entry, 0, 0)) {
            (1..=columns).for_each(|column| run.check(value, &reading(entry, 0, column)));
        }
    };
    // All bodies of up to two bytes; of up to four behind the kind of a local entry, and of edges behind others.
    inputs::every_body(&[], &ALL, 2, |entry| whole(run, entry));
    inputs::every_body(&[LOCAL], &ALL, 3, |entry| whole(run, entry));
    for kind in [0, 2, 3, 4, 0x81, 0xFF] {
        inputs::every_body(&[kind], &[0, 1, 2, 3, 5, 0x7F, 0x80, 0x81, 0xFF], 3, |entry| whole(run, entry));
    }
    // Behind a rowid, one column and its bitmap: all blocks of up to two bytes; of up to three where there is such a tag, and of up to four in a long run.
    let behind_tag = if run.long() { 3 } else { 2 };
    for map in [0x00, 0xFE] {
        inputs::every_body(&[LOCAL, 0, 1, map], &ALL, 2, |entry| whole(run, entry));
        for tag in 0..=4 {
            inputs::every_body(&[LOCAL, 0, 1, map, tag], &ALL, behind_tag, |entry| whole(run, entry));
        }
    }
    // In the longest run all of four bytes behind a rowid and a column count.
    if run.longest() {
        for count in [1, 2] {
            inputs::every_body(&[LOCAL, 0, count], &ALL, 4, |entry| whole(run, entry));
        }
    }
    // One to nine columns and a bitmap; then all two bytes, and what some of them ask for.
    for (count, map) in [(1, 0), (1, 0xFE), (2, 0), (2, 1), (2, 0xFE), (9, 0)] {
        for tail in [&[][..], &[0x41], &[0x41, 0x42], &[3, 1], &[2, 1, 0x41]] {
            let mut body = vec![LOCAL, 0, count, map];
            if count > 8 {
                body.push(0xFE);
            }
            let two = body.len();
            body.extend([0, 0]);
            body.extend(tail);
            let mut entry = framed(&body);
            for word in 0..=u16::MAX {
                entry[1 + two..][..2].copy_from_slice(&word.to_be_bytes());
                whole(run, &entry);
            }
        }
    }
    for (body, count) in telling_bodies() {
        for longer in [0, 1, 3] {
            let entry = framed_longer(&body, longer);
            for column in [0, 1, count.wrapping_sub(1), count, u64::MAX] {
                run.check(value, &reading(&entry, 0, column));
            }
            run.check(decode, &reading(&entry, 0, 0));
            // Something before it, and behind it.
            let around = [&[0x05, 0x80][..], &entry, &[0x00, 0x7F]].concat();
            run.check(decode, &reading(&around, 2, 0));
            run.check(value, &reading(&around, 2, 0));
        }
    }
}

/// Whole rows: asked for every column, cut and damaged at every byte, read at other places.
fn rows(run: &mut Comparison) {
    let places = READERS.map(|name| run.place(name));
    let value = run.place(VALUE);
    for round in 0..1500 * run.scale {
        let columns = match round % 8 {
            0 => 0,
            1 => 8,
            2 => 9,
            3 => run.random.below(40) as usize,
            _ => run.random.below(7) as usize,
        };
        let form = if round % 2 == 0 { Form::Plain } else { Form::Loose };
        let list = some_list(columns, &mut run.random);
        let rowid = inputs::signed_like(run.random.number()) as i64;
        let body = body(rowid, &list, form, &mut run.random);
        let entry = framed_longer(&body, if form == Form::Loose { run.random.below(3) as usize } else { 0 });
        let before = run.random.below(4) as usize;
        let mut buf = run.random.bytes(before);
        buf.extend(&entry);
        buf.extend(run.random.bytes(2));
        places.iter().for_each(|place| run.check(*place, &reading(&buf, before, 0)));
        for column in 0..columns as u64 + 2 {
            run.check(value, &reading(&buf, before, column));
        }
        for pos in [buf.len() - 1, buf.len(), buf.len() + 1, usize::MAX, before + 1] {
            places.iter().for_each(|place| run.check(*place, &reading(&buf, pos, 0)));
        }
        let column = run.random.below(columns as u64 + 2);
        let both = [places[3], value];
        let mut damaged = buf.clone();
        for at in before..before + entry.len() {
            for byte in [0x00, 0x01, 0x02, 0x04, 0x05, 0x7F, 0x80, 0xFF, run.random.byte(), buf[at] ^ 1, buf[at].wrapping_add(1)] {
                damaged[at] = byte;
                both.iter().for_each(|place| run.check(*place, &reading(&damaged, before, column)));
            }
            damaged[at] = buf[at];
            both.iter().for_each(|place| run.check(*place, &reading(&buf[..at], before, column)));
            // Cut, with a length that is right again.
            let cut = framed(&entry[entry.len() - body.len()..][..(at - before).min(body.len())]);
            both.iter().for_each(|place| run.check(*place, &reading(&cut, 0, column)));
        }
        for _ in 0..8 {
            let body = inputs::damaged(&body, &mut run.random);
            let entry = framed(&body);
            both.iter().for_each(|place| run.check(*place, &reading(&entry, 0, column)));
        }
    }
}

/// Lists that reach each refusal, and stand on either side of what decides.
fn telling_lists() -> Vec<List> {
    let mut lists = vec![
        List::default(),
        List::of(&[(0, 5, &[]), (255, 0, &[]), (2, 1, b"A"), (3, 1, &[])]),
        // Lengths that differ, either way; words that are no whole number of eights.
        List { kinds: vec![0], ..List::default() },
        List { words: vec![0; 8], ..List::default() },
        List { kinds: vec![0], words: vec![0; 7], ..List::default() },
        List { kinds: vec![0], words: vec![0; 9], ..List::default() },
        // 25 stands before 15.
        List { words: vec![0; 1], ..List::default() },
        // Words that a Bool and a null do not have.
        List::of(&[(3, 0, &[])]),
        List::of(&[(3, 2, &[])]),
        List::of(&[(3, u64::MAX, &[])]),
        List::of(&[(255, 1, &[])]),
        List::of(&[(255, u64::MAX, &[])]),
        // Kinds that there are not.
        List::of(&[(6, 0, &[])]),
        List::of(&[(254, 0, &[])]),
        // A null inside a value, whatever its word; columns are judged in order.
        List::of(&[(5, 0, &[])]),
        List::of(&[(5, u64::MAX, &[])]),
        List::of(&[(5, 0, &[]), (6, 0, &[])]),
        List::of(&[(6, 0, &[]), (5, 0, &[])]),
        List::of(&[(2, 2, &[0xC0, 0x80]), (5, 0, &[])]),
        List::of(&[(5, 0, &[]), (2, 2, &[0xC0, 0x80])]),
        // Data short, exact, left over; short stands before not UTF-8, and that before left over.
        List::of(&[(2, 2, b"A")]),
        List::of(&[(2, 0, b"A")]),
        List::of(&[(2, 2, b"AB")]),
        List::of(&[(2, 2, &[0xFF])]),
        List::of(&[(2, 1, &[0xFF, 0xFF])]),
        List::of(&[(2, 1, &[0xC3]), (2, 1, &[0xA9])]),
        List::of(&[(4, 1, &[1, 2, 3])]),
        List::of(&[(4, 1, &[1, 2, 3, 4])]),
        List::of(&[(4, 1, &[1, 2, 3, 4, 5])]),
        List::of(&[(4, 0, &[])]),
        List::of(&[(0, 0, b"x")]),
        // Four times this dimension is 0 and 4, modulo 2^64.
        List::of(&[(4, 1 << 62, &[])]),
        List::of(&[(4, (1 << 62) + 1, &[1, 2, 3, 4])]),
        List::of(&[(2, u64::MAX, b"A")]),
        List::of(&[(4, u64::MAX, b"ABCD")]),
    ];
    for columns in [1, 7, 8, 9, 16, 17, 127, 128] {
        lists.push(List { kinds: vec![255; columns], words: vec![0; 8 * columns], data: vec![] });
        let mut last = List { kinds: vec![255; columns - 1], words: vec![0; 8 * (columns - 1)], data: vec![] };
        last.push(3, 1, &[]);
        lists.push(last);
    }
    lists.extend(REALS.map(|bits| List::of(&[(1, bits, &[])])));
    lists
}

fn writers(run: &mut Comparison) {
    let places = WRITERS.map(|name| run.place(name));
    for value in inputs::limits() {
        let list = List::of(&[(0, value, &[])]);
        let output = run.random.bytes(30);
        places.iter().for_each(|place| run.check(*place, &list.writing(0, &output)));
        places.iter().for_each(|place| run.check(*place, &List::default().writing(value as i64, &output)));
        // As a length and as a dimension, of too little data.
        for kind in 2..=5 {
            places.iter().for_each(|place| run.check(*place, &List::of(&[(kind, value, b"abcd")]).writing(1, &output)));
        }
    }
    for list in telling_lists() {
        for size in 0..=160 {
            let output = run.random.bytes(size);
            places.iter().for_each(|place| run.check(*place, &list.writing(-1, &output)));
        }
    }
    // Texts of every length up to some words: ASCII, with a longer character at the end, and with a byte at any place that no text has.
    for length in 0..=140 {
        let text = ascii(length, &mut run.random);
        let mut all = vec![text.clone(), [&text[..], "é".as_bytes()].concat()];
        all.extend((0..length).map(|at| [&text[..at], &[0xFF], &text[at + 1..]].concat()));
        for text in all {
            let list = List::of(&[(255, 0, &[]), (2, text.len() as u64, &text), (3, 1, &[])]);
            for size in [length + 8, 160] {
                let output = run.random.bytes(size);
                places.iter().for_each(|place| run.check(*place, &list.writing(300, &output)));
            }
        }
    }
    // Bodies on either side of a longer length varint.
    for length in (110..=130).chain(16_360..=16_390) {
        let list = List::of(&[(2, length, &vec![b'x'; length as usize])]);
        for size in [length + 4, length + 5, length + 6, length + 7, length + 8, length + 9] {
            let output = vec![0xEE; size as usize];
            places.iter().for_each(|place| run.check(*place, &list.writing(7, &output)));
        }
    }
    // The most that a list may have, and one more.
    for columns in [65_536, 65_537] {
        let list = List { kinds: vec![255; columns], words: vec![0; 8 * columns], data: vec![] };
        let output = vec![0xEE; 8300];
        places.iter().for_each(|place| run.check(*place, &list.writing(i64::MIN, &output)));
        let fewer = List { kinds: vec![255; columns - 1], ..list.clone() };
        places.iter().for_each(|place| run.check(*place, &fewer.writing(0, &output)));
        let fewer = List { words: vec![0; 8 * (columns - 1)], ..list };
        places.iter().for_each(|place| run.check(*place, &fewer.writing(0, &output)));
    }
    for bytes in [16 << 20, (16 << 20) + 1] {
        let list = List::of(&[(2, bytes, &vec![b'x'; bytes as usize])]);
        let output = vec![0xEE; bytes as usize + 13];
        places.iter().for_each(|place| run.check(*place, &list.writing(0, &output)));
    }
    for round in 0..60_000 * run.scale {
        let columns = run.random.below(if round % 16 == 0 { 70 } else { 8 }) as usize;
        let mut list = if round % 3 == 0 { some_list(columns, &mut run.random) } else { common_list(columns, &mut run.random) };
        if run.random.below(3) == 0 {
            list = damaged_list(&list, &mut run.random);
        }
        let rowid = inputs::signed_like(run.random.number()) as i64;
        let size = run.random.below(12 * columns as u64 + 24) as usize;
        let output = run.random.bytes(size);
        places.iter().for_each(|place| run.check(*place, &list.writing(rowid, &output)));
    }
}

/// A copy with something wrong in its kinds, its words or its data.
fn damaged_list(list: &List, random: &mut Random) -> List {
    let mut bad = list.clone();
    match random.below(4) {
        0 => bad.kinds = inputs::damaged(&bad.kinds, random),
        1 => bad.words = inputs::damaged(&bad.words, random),
        2 => bad.data = inputs::damaged(&bad.data, random),
        _ => {
            if let Some(kind) = bad.kinds.first_mut() {
                *kind = *random.pick(&[0, 1, 2, 3, 4, 5, 6, 254, 255]);
            }
        }
    }
    bad
}

/// For the record: bodies and lists that tell; rows of all kinds, whole, cut and damaged.
fn sample(put: &mut dyn FnMut(&'static str, &Input)) {
    let mut random = Random::new(6);
    for pos in [0, 1, 2, usize::MAX] {
        for buf in [&[][..], &[0x80], &[0x00, 0x01], &[0x00, 0x02], &[0x05], &[0x05, 0x01, 0x80], &[0xFF; 12]] {
            READERS.iter().for_each(|name| put(name, &reading(buf, pos, 0)));
        }
    }
    for value in (0..=9).flat_map(|k| [-1, 0, 1].map(|near| (1u64 << (7 * k)).wrapping_add_signed(near))).chain([
        u64::MAX - 10,
        u64::MAX - 9,
        u64::MAX,
    ]) {
        let entry = [&leb(value)[..], &[1, 0, 0]].concat();
        READERS.iter().for_each(|name| put(name, &reading(&entry, 0, 0)));
        let entry = framed(&[&[1][..], &leb(value), &[0]].concat());
        READERS.iter().for_each(|name| put(name, &reading(&entry, 0, 0)));
    }
    for (place, (body, count)) in telling_bodies().into_iter().enumerate() {
        // Of the many counts, lengths and dimensions that no body holds, every eighth.
        if body.len() > 12 && place % 8 != 0 {
            continue;
        }
        let entry = framed(&body);
        put(DECODE, &reading(&entry, 0, 0));
        for column in [0, count] {
            put(VALUE, &reading(&entry, 0, column));
        }
    }
    READERS.iter().for_each(|name| put(name, &reading(&STARRED, 0, 2)));
    for round in 0..24 {
        let columns = [0, 1, 2, 3, 5, 8, 9, 20][round % 8];
        let list = some_list(columns, &mut random);
        let rowid = inputs::signed_like(random.number()) as i64;
        let form = if round % 2 == 0 { Form::Plain } else { Form::Loose };
        let body = body(rowid, &list, form, &mut random);
        let entry = framed_longer(&body, round % 3);
        let before = round % 4;
        let buf = [&random.bytes(before)[..], &entry, &[0x55]].concat();
        READERS.iter().for_each(|name| put(name, &reading(&buf, before, 0)));
        for column in 0..=columns as u64 {
            put(VALUE, &reading(&buf, before, column));
        }
        // Of a long entry, every fourth byte.
        for at in (before..before + entry.len()).step_by(if entry.len() < 40 { 1 } else { 4 }) {
            put(DECODE, &reading(&buf[..at], before, 0));
            let mut damaged = buf.clone();
            damaged[at] = damaged[at].wrapping_add(1 + random.below(255) as u8);
            put(if at % 4 == 0 { VALUE } else { DECODE }, &reading(&damaged, before, random.below(columns as u64 + 1)));
        }
        // The same list, written.
        for name in WRITERS {
            for size in [entry.len(), entry.len() + 9] {
                put(name, &list.writing(rowid, &vec![0xEE; size]));
            }
            put(name, &damaged_list(&list, &mut random).writing(rowid, &vec![0xEE; entry.len() + 9]));
        }
    }
    for list in telling_lists() {
        for name in WRITERS {
            for size in [0, 4, list.most()] {
                put(name, &list.writing(-1, &(0..size).map(|i| 0xE0 | i as u8).collect::<Vec<u8>>()));
            }
        }
    }
    for columns in [1, 4, 7, 8, 12, 20] {
        let list = common_list(columns, &mut random);
        WRITERS.iter().for_each(|name| put(name, &list.writing(300, &vec![0xEE; list.most()])));
    }
}
