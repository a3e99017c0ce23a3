//! varint.rs: LEB128 and ZigZag.

use crate::frame::{Call, Comparison, Expected, Input, Layer, Lent, Part, expect, expect_written};
use crate::inputs::{self, leb_in, signed_like};
use crate::random::Random;
use Part::{Bytes, Number, Output};
use seremonek::ffi;

pub const LAYER: Layer = Layer { name: "varint", calls: CALLS, compare, sample };

const CALLS: &[Call] = &[
    Call {
        name: "smk_read_u64",
        parts: &[Bytes, Number],
        values: 2,
        answers: &[0, 1, 2],
        rust: |input| {
            expect(oracle::varint::read_u64(input.bytes[0], input.numbers[0] as usize), Some(1), |(value, bytes)| {
                Expected::accepted(&[value, bytes as u64])
            })
        },
        ours: |lent| unsafe { ffi::smk_read_u64(lent.bytes[0].as_ptr(), lent.bytes[0].len(), lent.numbers[0] as usize, lent.answer()) },
    },
    Call {
        name: "smk_read_i64",
        parts: &[Bytes, Number],
        values: 2,
        answers: &[0, 1, 2],
        rust: |input| {
            expect(oracle::varint::read_i64(input.bytes[0], input.numbers[0] as usize), Some(1), |(value, bytes)| {
                Expected::accepted(&[value as u64, bytes as u64])
            })
        },
        ours: |lent| unsafe { ffi::smk_read_i64(lent.bytes[0].as_ptr(), lent.bytes[0].len(), lent.numbers[0] as usize, lent.answer()) },
    },
    Call {
        name: "smk_write_u64",
        parts: &[Number, Output],
        values: 1,
        answers: &[0, 16],
        rust: |input| {
            expect(oracle::varint::write_u64(input.numbers[0]), None, |(bytes, count)| expect_written(bytes, input, &[count as u64]))
        },
        ours: |lent| unsafe { ffi::smk_write_u64(lent.numbers[0], lent.outputs[0].as_mut_ptr(), lent.outputs[0].len(), lent.answer()) },
    },
    Call {
        name: "smk_write_i64",
        parts: &[Number, Output],
        values: 1,
        answers: &[0, 16],
        rust: |input| {
            expect(oracle::varint::write_i64(input.numbers[0] as i64), None, |(bytes, count)| expect_written(bytes, input, &[count as u64]))
        },
        ours: |lent| unsafe {
            ffi::smk_write_i64(lent.numbers[0] as i64, lent.outputs[0].as_mut_ptr(), lent.outputs[0].len(), lent.answer())
        },
    },
    direct(
        "smk_u64_len",
        |input| expect(oracle::varint::u64_len(input.numbers[0]), None, |n| Expected::accepted(&[n as u64])),
        |lent| unsafe { lent.direct(ffi::smk_u64_len(lent.numbers[0])) },
    ),
    direct(
        "smk_i64_len",
        |input| expect(oracle::varint::i64_len(input.numbers[0] as i64), None, |n| Expected::accepted(&[n as u64])),
        |lent| unsafe { lent.direct(ffi::smk_i64_len(lent.numbers[0] as i64)) },
    ),
    direct(
        "smk_zigzag_encode",
        |input| expect(oracle::varint::zigzag_encode(input.numbers[0] as i64), None, |u| Expected::accepted(&[u])),
        |lent| unsafe { lent.direct(ffi::smk_zigzag_encode(lent.numbers[0] as i64)) },
    ),
    direct(
        "smk_zigzag_decode",
        |input| expect(oracle::varint::zigzag_decode(input.numbers[0]), None, |v| Expected::accepted(&[v as u64])),
        |lent| unsafe { lent.direct(ffi::smk_zigzag_decode(lent.numbers[0]) as u64) },
    ),
];

/// A call on one number that answers a number and refuses nothing.
const fn direct(name: &'static str, rust: fn(&Input) -> Expected, ours: fn(&mut Lent) -> u32) -> Call {
    Call { name, parts: &[Number], values: 1, answers: &[0], rust, ours }
}

const READERS: [&str; 2] = ["smk_read_u64", "smk_read_i64"];
const WRITERS: [&str; 2] = ["smk_write_u64", "smk_write_i64"];
const DIRECT: [&str; 4] = ["smk_u64_len", "smk_i64_len", "smk_zigzag_encode", "smk_zigzag_decode"];

/// Outputs from none to one more than a varint can take.
const SIZES: std::ops::RangeInclusive<usize> = 0..=11;

fn reading(buf: &[u8], pos: usize) -> Input<'_> {
    Input { bytes: [buf, &[], &[]], numbers: [pos as u64, 0, 0, 0], ..Input::default() }
}

fn writing(value: u64, output: &[u8]) -> Input<'_> {
    Input { numbers: [value, 0, 0, 0], outputs: [output, &[]], ..Input::default() }
}

/// `value` in every length that holds it, from the shortest to ten bytes.
pub fn forms(value: u64) -> impl Iterator<Item = Vec<u8>> {
    (inputs::leb(value).len()..=10).map(move |length| leb_in(value, length))
}

fn compare(run: &mut Comparison) {
    readers(run);
    writers(run);
    for place in DIRECT.map(|name| run.place(name)) {
        for value in inputs::limits() {
            run.check(place, &writing(value, &[]));
        }
        for _ in 0..100_000 * run.scale {
            let value = run.random.number();
            run.check(place, &writing(value, &[]));
        }
    }
}

fn readers(run: &mut Comparison) {
    let places = READERS.map(|name| run.place(name));
    inputs::every_short(run.long(), |buf, pos| places.iter().for_each(|place| run.check(*place, &reading(buf, pos))));
    // Each limit, in every length, with something before it, ending at every place.
    for value in inputs::limits() {
        for form in forms(value) {
            for before in [0, 1, 6] {
                let mut buf = run.random.bytes(before);
                buf.extend(&form);
                buf.extend(run.random.bytes(2));
                for end in before..=buf.len() {
                    places.iter().for_each(|place| run.check(*place, &reading(&buf[..end], before)));
                }
            }
        }
    }
    // Tenth bytes of all values, after any nine that go on, ending at every place.
    for tenth in 0..=255 {
        for _ in 0..8 * run.scale {
            let mut buf: Vec<u8> = run.random.bytes(9).iter().map(|byte| byte | 0x80).collect();
            buf.push(tenth);
            buf.extend(run.random.bytes(2));
            for end in 0..=buf.len() {
                places.iter().for_each(|place| run.check(*place, &reading(&buf[..end], 0)));
            }
        }
    }
    for _ in 0..150_000 * run.scale {
        let (buf, pos) = some_buffer(&mut run.random);
        places.iter().for_each(|place| run.check(*place, &reading(&buf, pos)));
    }
}

/// A few good numbers in a row, or damage to them, or noise in which most bytes go on; read somewhere in it, or just outside, or far outside.
fn some_buffer(random: &mut Random) -> (Vec<u8>, usize) {
    let mut buf = Vec::new();
    for _ in 0..=random.below(3) {
        let value = random.number();
        let forms: Vec<_> = forms(value).collect();
        buf.extend(random.pick(&forms));
    }
    match random.below(3) {
        0 => {}
        1 => buf = inputs::damaged(&buf, random),
        _ => {
            let length = random.below(16) as usize;
            buf = random.bytes(length).iter().map(|byte| if random.below(8) > 0 { byte | 0x80 } else { *byte }).collect();
        }
    }
    let pos = match random.below(16) {
        0 => buf.len(),
        1 => buf.len() + 1,
        2 => (random.number() as usize).wrapping_neg(),
        _ => random.below(buf.len() as u64 + 1) as usize,
    };
    (buf, pos)
}

fn writers(run: &mut Comparison) {
    for place in WRITERS.map(|name| run.place(name)) {
        for value in inputs::limits() {
            for size in SIZES {
                let output = run.random.bytes(size);
                run.check(place, &writing(value, &output));
            }
        }
        for _ in 0..100_000 * run.scale {
            let value = run.random.number();
            let size = run.random.below(16) as usize;
            let output = run.random.bytes(size);
            run.check(place, &writing(value, &output));
        }
    }
}

/// For the record: each limit of the length, in its shortest form and longer ones, cut and whole; all tenth bytes; all output sizes at the limits.
fn sample(put: &mut dyn FnMut(&'static str, &Input)) {
    let mut limits: Vec<u64> = (0..=9).flat_map(|k| [-1, 0, 1].map(|near| (1u64 << (7 * k)).wrapping_add_signed(near))).collect();
    limits.extend([300, i64::MAX as u64, u64::MAX - 1, u64::MAX]);
    for name in READERS {
        for pos in [0, 1, 2, usize::MAX - 9, usize::MAX] {
            put(name, &reading(&[], pos));
            put(name, &reading(&[0x05], pos));
        }
        for byte in 0..=255 {
            put(name, &reading(&[byte], 0));
        }
        for value in &limits {
            let forms: Vec<_> = forms(*value).collect();
            for form in [&forms[0], &forms[forms.len() / 2], &forms[forms.len() - 1]] {
                let buf: Vec<u8> = [&[0xDB, 0x1F, 0xFF][..], form, &[0x99]].concat();
                put(name, &reading(&buf, 3));
                put(name, &reading(&buf[..3 + form.len()], 3));
                put(name, &reading(&buf[..2 + form.len()], 3));
            }
        }
        for tenth in 0..=255 {
            let nine = leb_in(0x0123_4567_89AB_CDEF ^ (u64::from(tenth) << 20), 10);
            put(name, &reading(&[&nine[..9], &[tenth]].concat(), 0));
        }
        put(name, &reading(&[0xFF; 11], 0));
        put(name, &reading(&[0xFF; 11], 1));
        put(name, &reading(&[0xFF; 11], 2));
    }
    for (name, values) in [(WRITERS[0], limits.clone()), (WRITERS[1], limits.iter().map(|value| signed_like(*value)).collect())] {
        for value in values {
            for size in SIZES {
                put(name, &writing(value, &(0xE0..).take(size).collect::<Vec<u8>>()));
            }
        }
    }
    for name in DIRECT {
        for value in inputs::limits().into_iter().chain(limits.iter().map(|value| signed_like(*value))) {
            put(name, &writing(value, &[]));
        }
    }
}
