//! UTF-8, against `std::str::from_utf8`, which the originals call.

use crate::frame::{Call, Comparison, Expected, Input, Layer, Part, expect};
use crate::inputs;
use crate::random::Random;
use seremonek::ffi;

pub const LAYER: Layer = Layer { name: "utf8", calls: CALLS, compare, sample };

const CHECK: &str = "smk_utf8_check";

const CALLS: &[Call] = &[Call {
    name: CHECK,
    parts: &[Part::Bytes],
    values: 0,
    answers: &[0, 8],
    rust: |input| expect(oracle::utf8::check(input.bytes[0]), None, |()| Expected::accepted(&[])),
    ours: |lent| unsafe { ffi::smk_utf8_check(lent.bytes[0].as_ptr(), lent.bytes[0].len()) },
}];

fn checking(bytes: &[u8]) -> Input<'_> {
    Input { bytes: [bytes, &[], &[]], ..Input::default() }
}

/// Bytes on either side of every limit of Table 3-7.
const EDGES: [u8; 26] = [
    0x00, 0x41, 0x7F, 0x80, 0x8F, 0x90, 0x9F, 0xA0, 0xBF, 0xC0, 0xC1, 0xC2, 0xDF, 0xE0, 0xE1, 0xEC, 0xED, 0xEE, 0xEF, 0xF0, 0xF1, 0xF3,
    0xF4, 0xF5, 0xF8, 0xFF,
];

/// First and last characters of each row of the table, and some of the middle.
const CHARACTERS: [char; 24] = [
    '\0',
    'a',
    'Z',
    ' ',
    '\u{7F}',
    '\u{80}',
    'é',
    'ł',
    'Ж',
    '\u{7FF}',
    '\u{800}',
    '\u{FFF}',
    '\u{1000}',
    '中',
    '語',
    '\u{CFFF}',
    '\u{D7FF}',
    '\u{E000}',
    '\u{FFFF}',
    '\u{10000}',
    '🚀',
    '\u{FFFFF}',
    '\u{100000}',
    '\u{10FFFF}',
];

/// Texts of one kind, as long as they are to be (or a character longer).
fn text(of: &[char], length: usize, random: &mut Random) -> Vec<u8> {
    let mut text = String::new();
    while text.len() < length {
        text.push(*random.pick(of));
    }
    text.into_bytes()
}

const KINDS: [&[char]; 5] = [
    &['a', 'e', 'n', 'r', 'S', 't', ' ', '.', '0', '9'],
    &['a', 'e', 'n', 'r', 's', 't', 'ł', 'é', 'ö', 'Ż', ' '],
    &['中', '文', '日', '本', '語', '한', '국', '。'],
    &['a', 'b', ' ', 'é', 'Ж', '中', '語', '🚀', '🧭'],
    &CHARACTERS,
];

fn compare(run: &mut Comparison) {
    let place = run.place(CHECK);
    // All strings of up to three bytes.
    for length in 0..=3usize {
        for word in 0..1u32 << (8 * length) {
            run.check(place, &checking(&word.to_be_bytes()[4 - length..]));
        }
    }
    // All strings of four bytes with a first byte from F0 on.
    for word in 0xF000_0000..=u32::MAX {
        run.check(place, &checking(&word.to_be_bytes()));
    }
    // Each character, alone and behind ASCII of every length up to four words and more, cut at every place, and each of its bytes replaced by every byte.
    for character in CHARACTERS {
        for before in 0..=40 {
            let mut whole = vec![b'x'; before];
            whole.extend(character.encode_utf8(&mut [0; 4]).as_bytes());
            for end in before..=whole.len() {
                run.check(place, &checking(&whole[..end]));
            }
            for after in [0, 1, 7, 8, 33] {
                let mut text = whole.clone();
                text.resize(whole.len() + after, b'y');
                for at in before..whole.len() {
                    every_byte_at(run, place, &mut text, at, &inputs::ALL);
                }
            }
        }
    }
    // Texts of every kind, damaged at every place.
    for kind in KINDS {
        for length in (1..=70).chain([127, 128, 129, 255, 256, 257]) {
            let mut text = text(kind, length, &mut run.random);
            run.check(place, &checking(&text));
            for at in 0..text.len() {
                run.check(place, &checking(&text[..at]));
                run.check(place, &checking(&text[at..]));
                every_byte_at(run, place, &mut text, at, &EDGES);
                let mut shorter = text.clone();
                shorter.remove(at);
                run.check(place, &checking(&shorter));
            }
        }
        let mut text = text(kind, 4000, &mut run.random);
        run.check(place, &checking(&text));
        for at in 0..text.len() {
            every_byte_at(run, place, &mut text, at, &[0x00, 0x80, 0xBF, 0xC2, 0xED, 0xFF]);
        }
    }
    for _ in 0..100_000 * run.scale {
        let kind = *run.random.pick(&KINDS);
        let length = run.random.below(120) as usize;
        let mut bytes = text(kind, length, &mut run.random);
        for _ in 0..run.random.below(3) {
            bytes = inputs::damaged(&bytes, &mut run.random);
        }
        run.check(place, &checking(&bytes));
    }
}

/// `text` with each of `bytes` at a place; it is afterwards as it was.
fn every_byte_at(run: &mut Comparison, place: usize, text: &mut [u8], at: usize, bytes: &[u8]) {
    let was = text[at];
    for byte in bytes {
        text[at] = *byte;
        run.check(place, &checking(text));
    }
    text[at] = was;
}

/// For the record: all single bytes; edges behind each other, behind ASCII of some lengths; each character cut at every place; longer texts whole and damaged.
fn sample(put: &mut dyn FnMut(&'static str, &Input)) {
    let mut put = |bytes: &[u8]| put(CHECK, &checking(bytes));
    put(&[]);
    for byte in 0..=255 {
        put(&[byte]);
    }
    for first in EDGES {
        for second in EDGES {
            put(&[first, second]);
        }
    }
    for first in [0xE0, 0xE1, 0xEC, 0xED, 0xEE, 0xEF, 0xF0, 0xF1, 0xF3, 0xF4, 0xF5] {
        for second in [0x7F, 0x80, 0x8F, 0x90, 0x9F, 0xA0, 0xBF, 0xC0] {
            for third in [0x7F, 0x80, 0xBF, 0xC0] {
                put(&[first, second, third]);
                put(&[first, second, third, 0x80]);
                put(&[first, second, third, 0xC0]);
            }
        }
    }
    for character in CHARACTERS {
        let mut buf = [0; 4];
        let bytes = character.encode_utf8(&mut buf).as_bytes();
        for before in [0, 1, 7, 8, 15, 31, 32, 33] {
            let text = [&vec![b'x'; before][..], bytes, b"y"].concat();
            (before..=text.len()).for_each(|end| put(&text[..end]));
        }
    }
    let mut random = Random::new(5);
    for kind in KINDS {
        for length in [8, 12, 20, 64, 300] {
            let text = text(kind, length, &mut random);
            put(&text);
            for _ in 0..12 {
                put(&inputs::damaged(&text, &mut random));
            }
        }
    }
    // As long as a page, damaged at its end.
    for kind in [KINDS[0], KINDS[2]] {
        let mut text = text(kind, 4000, &mut random);
        put(&text);
        text.push(0xFF);
        put(&text);
    }
}
