//! Overflow references, paged entries (overflow.rs, first half) and interior cells (interior_page.rs).

use crate::entries::{self, INTERIOR, LOCAL, OVERFLOW, framed, interior, reference};
use crate::frame::{Call, Comparison, Expected, Input, Layer, Part, expect, expect_written};
use crate::inputs::{self, ALL, every_body, every_end, leb, leb_in};
use crate::random::Random;
use crate::varint::forms;
use Part::{Bytes, Number, Output};
use seremonek::ffi;

pub const LAYER: Layer = Layer { name: "references", calls: CALLS, compare, sample };

const CALLS: &[Call] = &[
    Call {
        name: "smk_overflow_decode",
        parts: &[Bytes, Number],
        values: 4,
        answers: &[0, 1, 2, 3, 5, 6, 10],
        rust: |input| {
            let reply = oracle::overflow::decode(input.bytes[0], input.numbers[0] as usize);
            expect(reply, None, |(rowid, total, first, bytes)| Expected::accepted(&[rowid as u64, total, u64::from(first), bytes as u64]))
        },
        ours: |lent| unsafe {
            ffi::smk_overflow_decode(lent.bytes[0].as_ptr(), lent.bytes[0].len(), lent.numbers[0] as usize, lent.answer())
        },
    },
    Call {
        name: "smk_overflow_encode",
        parts: &[Number, Number, Number, Output],
        values: 1,
        answers: &[0, 16],
        rust: |input| {
            let [rowid, total, first, _] = input.numbers;
            expect(oracle::overflow::encode(rowid as i64, total, page(first)), None, |bytes| {
                let count = bytes.len() as u64;
                expect_written(bytes, input, &[count])
            })
        },
        ours: |lent| unsafe {
            let [rowid, total, first, _] = lent.numbers;
            ffi::smk_overflow_encode(rowid as i64, total, page(first), lent.outputs[0].as_mut_ptr(), lent.outputs[0].len(), lent.answer())
        },
    },
    Call {
        name: "smk_entry_decode",
        parts: &[Bytes, Number],
        values: 5,
        answers: &[0, 1, 2, 3, 4, 5, 6, 7, 8, 9, 10],
        rust: |input| {
            let reply = oracle::overflow::decode_paged(input.bytes[0], input.numbers[0] as usize);
            // The original panics at a text or a vector whose end passes the machine word; document 01 has 7 there.
            expect(reply, Some(7), |(kind, rowid, size, first, bytes)| {
                Expected::accepted(&[u64::from(kind), rowid as u64, size, u64::from(first), bytes as u64])
            })
        },
        ours: |lent| unsafe { ffi::smk_entry_decode(lent.bytes[0].as_ptr(), lent.bytes[0].len(), lent.numbers[0] as usize, lent.answer()) },
    },
    Call {
        name: "smk_interior_cell_decode",
        parts: &[Bytes, Number],
        values: 3,
        answers: &[0, 1, 2, 3, 5, 6, 10],
        rust: |input| {
            let reply = oracle::interior_page::decode_cell(input.bytes[0], input.numbers[0] as usize);
            expect(reply, None, |(divider, child, bytes)| Expected::accepted(&[divider as u64, u64::from(child), bytes as u64]))
        },
        ours: |lent| unsafe {
            ffi::smk_interior_cell_decode(lent.bytes[0].as_ptr(), lent.bytes[0].len(), lent.numbers[0] as usize, lent.answer())
        },
    },
    Call {
        name: "smk_interior_cell_encode",
        parts: &[Number, Number, Output],
        values: 1,
        answers: &[0, 16],
        rust: |input| {
            let [divider, child, ..] = input.numbers;
            expect(oracle::interior_page::encode_cell(divider as i64, page(child)), None, |bytes| {
                let count = bytes.len() as u64;
                expect_written(bytes, input, &[count])
            })
        },
        ours: |lent| unsafe {
            let [divider, child, ..] = lent.numbers;
            ffi::smk_interior_cell_encode(divider as i64, page(child), lent.outputs[0].as_mut_ptr(), lent.outputs[0].len(), lent.answer())
        },
    },
];

/// A page number of an input, which is given as a number of 64 bits.
fn page(number: u64) -> u32 {
    u32::try_from(number).expect("the inputs of this layer have page numbers of 32 bits")
}

const READERS: [&str; 3] = ["smk_overflow_decode", "smk_entry_decode", "smk_interior_cell_decode"];
const OVERFLOW_ENCODE: &str = "smk_overflow_encode";
const INTERIOR_ENCODE: &str = "smk_interior_cell_encode";

const KINDS: [u8; 3] = [LOCAL, OVERFLOW, INTERIOR];

/// Bytes at which a varint, a kind, a tag or a page number changes what it says.
const EDGES: [u8; 9] = [0x00, 0x01, 0x02, 0x03, 0x04, 0x05, 0x7F, 0x80, 0xFF];

/// Page numbers: each byte of them alone, and the ends.
const PAGES: [u32; 9] = [0, 1, 9, 0x7F, 0x80, 0x1234_5678, 0x8000_0000, 0xFF00_FF00, 0xFFFF_FFFF];

/// What stands behind an entry. All of it is as much as the longest reference: where there is so much, numbers are read by words.
const BEHIND: [u8; 26] = [
    0x01, 0x80, 0xFF, 0x7F, 0x00, 0x02, 0x80, 0x80, 0x80, 0x80, 0x80, 0x80, 0x80, 0x80, 0x80, 0x01, 0x03, 0xFF, 0xFF, 0xFF, 0xFF, 0xFF,
    0xFF, 0xFF, 0xFF, 0xFF,
];

/// Outputs from none to one more than a reference can take, and than an interior cell can.
const REFERENCE_SIZES: std::ops::RangeInclusive<usize> = 0..=27;
const INTERIOR_SIZES: std::ops::RangeInclusive<usize> = 0..=17;

fn reading(buf: &[u8], pos: usize) -> Input<'_> {
    Input { bytes: [buf, &[], &[]], numbers: [pos as u64, 0, 0, 0], ..Input::default() }
}

fn writing(numbers: [u64; 4], output: &[u8]) -> Input<'_> {
    Input { numbers, outputs: [output, &[]], ..Input::default() }
}

fn any_form(value: u64, random: &mut Random) -> Vec<u8> {
    let all: Vec<_> = forms(value).collect();
    random.pick(&all).clone()
}

fn any_page(random: &mut Random) -> u32 {
    (random.number() >> 32) as u32
}

/// A value block of each tag.
fn some_block(random: &mut Random) -> Vec<u8> {
    let mut block = vec![random.below(5) as u8];
    match block[0] {
        0 => {
            let value = random.number();
            block.extend(any_form(value, random));
        }
        1 => block.extend(random.bytes(8)),
        2 => {
            let text = *random.pick(&["", "A", "gate 4", "Łódź", "東京", "🚀 ok"]);
            block.extend(leb(text.len() as u64));
            block.extend(text.as_bytes());
        }
        3 => block.push(random.below(2) as u8),
        _ => {
            let dimension = random.below(4);
            block.extend(leb(dimension));
            block.extend(random.bytes(4 * dimension as usize));
        }
    }
    block
}

/// A good local body.
fn some_local(random: &mut Random) -> Vec<u8> {
    let columns = random.below(12);
    let rowid = random.number();
    let rowid = any_form(rowid, random);
    let count = any_form(columns, random);
    let blocks: Vec<_> = (0..columns).map(|_| (random.below(3) != 0).then(|| some_block(random))).collect();
    entries::local(&rowid, &count, &blocks, 0)
}

fn some_body(random: &mut Random) -> Vec<u8> {
    let rowid = random.number();
    let rowid = any_form(rowid, random);
    let page = any_page(random);
    match random.below(5) {
        0 | 1 => {
            let total = random.number();
            reference(&rowid, &any_form(total, random), page)
        }
        2 | 3 => interior(&rowid, page),
        _ => some_local(random),
    }
}

fn compare(run: &mut Comparison) {
    readers(run);
    writers(run);
}

/// One buffer to all three readers: each takes its kind and refuses the others.
fn all(run: &mut Comparison, places: &[usize; 3], buf: &[u8], pos: usize) {
    places.iter().for_each(|place| run.check(*place, &reading(buf, pos)));
}

/// `body` behind the length of it and of `more` bytes; alone, with something behind it, and with room behind it.
fn both_ways(run: &mut Comparison, places: &[usize; 3], body: &[u8], more: u64) {
    let mut buf = leb(body.len() as u64 + more);
    buf.extend(body);
    all(run, places, &buf, 0);
    buf.extend(&BEHIND[..2]);
    all(run, places, &buf, 0);
    buf.extend(&BEHIND[2..]);
    all(run, places, &buf, 0);
}

fn readers(run: &mut Comparison) {
    let places = READERS.map(|name| run.place(name));
    let [overflow, paged, cell] = places;
    let longest = run.longest();
    inputs::every_short(run.long(), |buf, pos| all(run, &places, buf, pos));
    // All bodies of up to two bytes; of up to four behind each kind, for the readers of that kind.
    every_end(&[], &ALL, 2, |body| both_ways(run, &places, body, 0));
    for (kind, readers) in [(LOCAL, &[paged][..]), (OVERFLOW, &[overflow, paged]), (INTERIOR, &[cell])] {
        every_body(&[kind], &ALL, 3, |entry| readers.iter().for_each(|place| run.check(*place, &reading(entry, 0))));
    }
    for kind in KINDS {
        // Longer ones of edges alone, with a right length, and with one that is too long.
        every_end(&[kind], &[0x00, 0x01, 0x80, 0xFF], 7, |body| both_ways(run, &places, body, 0));
        every_end(&[kind], &EDGES, 3, |body| both_ways(run, &places, body, 1));
    }
    // Behind a rowid, and behind a rowid and a total: all ends of up to two bytes, and edges up to six; all pages with one lowest byte, and in the longest run all.
    for (front, readers) in [(&[OVERFLOW, 0x0E, 0x88, 0x27][..], &[overflow, paged][..]), (&[INTERIOR, 0x14], &[cell])] {
        every_end(front, &ALL, 2, |body| both_ways(run, &places, body, 0));
        every_end(front, &[0x00, 0x7F, 0x80], 6, |body| both_ways(run, &places, body, 0));
        let mut buf = Vec::new();
        let mut each = |entry: &[u8]| {
            readers.iter().for_each(|place| run.check(*place, &reading(entry, 0)));
            buf.clear();
            buf.extend_from_slice(entry);
            buf.extend(BEHIND);
            readers.iter().for_each(|place| run.check(*place, &reading(&buf, 0)));
        };
        every_body(&[front, &[0x09]].concat(), &ALL, 3, &mut each);
        if longest {
            every_body(front, &ALL, 4, &mut each);
        }
    }
    limits(run, &places);
    good_ones(run, &places);
    for _ in 0..60_000 * run.scale {
        let (buf, pos) = some_buffer(&mut run.random);
        all(run, &places, &buf, pos);
    }
}

/// Rowids and totals at every limit, in every form, and lengths in longer forms than they need.
fn limits(run: &mut Comparison, places: &[usize; 3]) {
    for value in inputs::limits() {
        for form in forms(value) {
            let page = *run.random.pick(&PAGES);
            let other = run.random.number();
            let other = any_form(other, &mut run.random);
            for body in [reference(&form, &other, page), reference(&other, &form, page), interior(&form, page)] {
                both_ways(run, places, &body, 0);
            }
        }
        // Lengths near the machine word's end: past the buffer, or past all numbers.
        let mut buf = leb(value);
        buf.extend([OVERFLOW, 0x0E, 0x88, 0x27, 9, 0, 0, 0]);
        all(run, places, &buf, 0);
        for block in [2, 4] {
            let mut body = vec![LOCAL, 0, 1, 0, block];
            body.extend(leb(value));
            both_ways(run, places, &body, 0);
            body.extend([b'A'; 8]);
            both_ways(run, places, &body, 0);
        }
    }
    for page in PAGES {
        for length in 1..=10 {
            for body in [reference(&[0x0E], &[0x88, 0x27], page), interior(&[0x14], page)] {
                let mut buf = [&leb_in(body.len() as u64, length)[..], &body].concat();
                all(run, places, &buf, 0);
                buf.extend(BEHIND);
                all(run, places, &buf, 0);
            }
        }
    }
}

/// Good entries at several places, cut at every place, and with each byte replaced by every byte.
fn good_ones(run: &mut Comparison, places: &[usize; 3]) {
    for round in 0..40 * run.scale {
        let body = some_body(&mut run.random);
        let good = framed(&body);
        for (before, behind) in [(0, 3), (1, 3), (5, 3), (0, 30), (2, 30)] {
            let mut buf = run.random.bytes(before);
            buf.extend(&good);
            buf.extend(run.random.bytes(behind));
            for end in 0..=buf.len() {
                all(run, places, &buf[..end], before);
            }
            (0..=buf.len() + 1).for_each(|pos| all(run, places, &buf, pos));
        }
        if round < 24 * run.scale {
            for behind in [&[0x80, 0x01][..], &BEHIND] {
                let mut bad = [&good[..], behind].concat();
                for at in 0..good.len() {
                    let was = bad[at];
                    for byte in 0..=255 {
                        bad[at] = byte;
                        all(run, places, &bad, 0);
                    }
                    bad[at] = was;
                }
            }
        }
    }
}

/// A few entries in a row, whole or damaged; read at the start of one, somewhere, or outside.
fn some_buffer(random: &mut Random) -> (Vec<u8>, usize) {
    let mut buf = Vec::new();
    let mut starts = Vec::new();
    for _ in 0..=random.below(5) {
        starts.push(buf.len());
        let body = some_body(random);
        let length = any_form(body.len() as u64, random);
        buf.extend([length, body].concat());
    }
    for _ in 0..random.below(3) {
        buf = inputs::damaged(&buf, random);
    }
    let pos = match random.below(16) {
        0 => buf.len(),
        1 => (random.number() as usize).wrapping_neg(),
        2 | 3 => random.below(buf.len() as u64 + 1) as usize,
        _ => *random.pick(&starts),
    };
    (buf, pos)
}

fn writers(run: &mut Comparison) {
    let (overflow, interior) = (run.place(OVERFLOW_ENCODE), run.place(INTERIOR_ENCODE));
    for value in inputs::limits() {
        let (other, page) = (run.random.number(), *run.random.pick(&PAGES));
        for size in REFERENCE_SIZES {
            let output = run.random.bytes(size);
            run.check(overflow, &writing([value, other, page.into(), 0], &output));
            run.check(overflow, &writing([other, value, page.into(), 0], &output));
        }
        for size in INTERIOR_SIZES {
            let output = run.random.bytes(size);
            run.check(interior, &writing([value, page.into(), 0, 0], &output));
        }
    }
    for _ in 0..100_000 * run.scale {
        let (value, other, page) = (run.random.number(), run.random.number(), any_page(&mut run.random));
        let size = run.random.below(32) as usize;
        let output = run.random.bytes(size);
        run.check(overflow, &writing([value, other, page.into(), 0], &output));
        run.check(interior, &writing([value, page.into(), 0, 0], &output));
    }
}

/// For the record: short buffers of edges; each limit in the places of a rowid and of a total, whole, with room behind it, and cut; left over and cut short;
/// damaged copies for each byte; all output sizes at the ends.
fn sample(put: &mut dyn FnMut(&'static str, &Input)) {
    let mut limits: Vec<u64> = (0..=9).flat_map(|k| [-1, 0].map(|near| (1u64 << (7 * k)).wrapping_add_signed(near))).collect();
    limits.extend([7, 5000, i64::MAX as u64, u64::MAX - 1, u64::MAX]);
    let starred = [framed(&reference(&[0x0E], &[0x88, 0x27], 9)), framed(&interior(&[0x14], 3))];
    let local = framed(&[1, 2, 4, 2, 0, 0x0A, 2, 1, 0x41, 3, 1]);
    let mut random = Random::new(6);
    let mut read = |buf: &[u8], pos: usize| READERS.iter().for_each(|name| put(name, &reading(buf, pos)));
    for pos in [0, 1, 2, 9, usize::MAX - 9, usize::MAX] {
        read(&[], pos);
        read(&starred[0], pos);
    }
    every_end(&[], &EDGES, 2, |buf| read(buf, 0));
    read(&[0xFF; 10], 0);
    for kind in 0..=7 {
        read(&framed(&[kind, 0, 0, 0, 0, 0, 0]), 0);
    }
    for good in starred.iter().chain([&local]) {
        for before in [0, 3] {
            let buf = [&[0xDB, 0x1F, 0xFF][..before], good, &[0x01, 0x80]].concat();
            (before..=buf.len()).for_each(|end| read(&buf[..end], before));
        }
        for at in 0..good.len() {
            for byte in [0x00, 0x05, 0x7F, 0x80, 0xFF] {
                for behind in [&[0x00, 0x01][..], &BEHIND] {
                    let mut bad = [good, behind].concat();
                    bad[at] = byte;
                    read(&bad, 0);
                }
            }
        }
    }
    for value in &limits {
        let all: Vec<_> = forms(*value).collect();
        for form in [&all[0], &all[all.len() - 1]] {
            let page = *random.pick(&PAGES);
            for body in [reference(form, &[0x05], page), reference(&[0x05], form, page), interior(form, page)] {
                read(&framed(&body), 0);
                read(&[&framed(&body)[..], &BEHIND].concat(), 0);
                read(&framed(&body[..body.len() - 1]), 0);
                read(&framed(&[&body[..], &[0]].concat()), 0);
                read(&framed(&body[..1 + form.len() / 2]), 0);
            }
        }
    }
    // Varints of a body that go on for too long, or end where the body does though the buffer goes on.
    for front in [&[OVERFLOW][..], &[OVERFLOW, 0x05], &[INTERIOR], &[LOCAL], &[LOCAL, 0x05], &[LOCAL, 0x00, 0x01, 0x00, 0x00]] {
        read(&framed(&[front, &[0xFF; 10]].concat()), 0);
        read(&[&framed(&[front, &[0x80]].concat())[..], &[0x01; 8]].concat(), 0);
    }
    // The refusals that a local entry alone has.
    for columns in [&[1, 0][..], &[1, 0, 5], &[1, 0, 2, 1, 0xC0], &[1, 0, 4, 0xFF, 0xFF, 0xFF, 0xFF, 0x0F], &[9, 0], &[1, 0, 3, 1, 0]] {
        read(&framed(&[&[LOCAL, 0x02][..], columns].concat()), 0);
    }
    for _ in 0..24 {
        let good = framed(&some_body(&mut random));
        read(&good, 0);
        read(&inputs::damaged(&good, &mut random), 0);
    }
    for page in PAGES {
        for value in [0, 7, 64, i64::MIN as u64] {
            put(OVERFLOW_ENCODE, &writing([value, 5000, page.into(), 0], &[0xE0; 26]));
            put(INTERIOR_ENCODE, &writing([value, page.into(), 0, 0], &[0xE0; 16]));
        }
    }
    for value in &limits {
        for size in [7, 8, 9, 15, 16, 17, 18, 26, 27] {
            let output: Vec<u8> = (0xE0..).take(size).collect();
            put(OVERFLOW_ENCODE, &writing([*value, 5000, 9, 0], &output));
            put(OVERFLOW_ENCODE, &writing([7, *value, 9, 0], &output));
        }
        for size in [6, 7, 15, 16, 17] {
            put(INTERIOR_ENCODE, &writing([*value, 3, 0, 0], &(0xE0..).take(size).collect::<Vec<u8>>()));
        }
    }
    for (value, total) in [(7, 5000), (i64::MIN as u64, u64::MAX)] {
        for size in REFERENCE_SIZES {
            put(OVERFLOW_ENCODE, &writing([value, total, 0x0403_0201, 0], &(0xC0..).take(size).collect::<Vec<u8>>()));
        }
        for size in INTERIOR_SIZES {
            put(INTERIOR_ENCODE, &writing([value, 0x0403_0201, 0, 0], &(0xC0..).take(size).collect::<Vec<u8>>()));
        }
    }
}
