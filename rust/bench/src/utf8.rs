//! The check of texts, against `std::str::from_utf8`.

use crate::numbers::Numbers;
use crate::timing::{Table, look};
use seremonek::ffi;
use std::hint::black_box;
use std::str::Utf8Error;

/// Bytes of one pass, about: enough texts that they cannot be learnt by heart, and few enough to stay near.
const PASS: usize = 1 << 17;

const LETTERS: &str = "abcdefghijklmnopqrstuvwxyz ABCDEFGHIJKLMNOPQRSTUVWXYZ 0123456789.,-";
const CJK: &str = "的一是不了人我在有他这中大来上个国和也子时道说出而得你日本語今日は漢字한국어사람";
const MIXED: [&str; 12] =
    ["the part ", "scanned at ", "gate 4, ", "Łódź ", "Zürich ", "São Paulo ", "Москва ", "東京 ", "서울 ", "北京市 ", "ok ", "🚀 "];
const NAMES: [&str; 16] = [
    "José Martínez",
    "Zoë Müller",
    "Łukasz Żółtowski",
    "François Lefèvre",
    "Søren Ørsted",
    "Renée Dubois",
    "Jürgen Groß",
    "Žofie Nováková",
    "Anna Nowak",
    "Mats Ångström",
    "Inês Gonçalves",
    "Dvořák",
    "Chloé",
    "Ana María Núñez",
    "Gökçe Yıldız",
    "John Smith",
];

/// Texts of `length` bytes, or a little less where the last character does not fit; as many as a pass has room for.
fn texts(words: &[&str], length: usize) -> Vec<Vec<u8>> {
    let mut numbers = Numbers::new();
    (0..PASS / length)
        .map(|_| {
            let mut text = String::new();
            while text.len() < length {
                text += *numbers.pick(words);
            }
            text.truncate((0..=length).rev().find(|end| text.is_char_boundary(*end)).unwrap());
            text.into_bytes()
        })
        .collect()
}

/// Words of one character.
fn characters(of: &str) -> Vec<&str> {
    of.split("").filter(|part| !part.is_empty()).collect()
}

fn names() -> Vec<Vec<u8>> {
    let mut numbers = Numbers::new();
    (0..PASS / 16).map(|_| numbers.pick(&NAMES).as_bytes().to_vec()).collect()
}

/// The last byte of each is one that no text has.
fn damaged(mut texts: Vec<Vec<u8>>) -> Vec<Vec<u8>> {
    texts.iter_mut().for_each(|text| *text.last_mut().unwrap() = 0xFF);
    texts
}

pub fn cases(table: &mut Table) {
    let (letters, cjk) = (characters(LETTERS), characters(CJK));
    for length in [8, 12, 20, 64, 4000] {
        case(table, &format!("utf8 ASCII {length}"), texts(&letters, length));
    }
    case(table, "utf8 Latin names", names());
    for length in [12, 64, 4000] {
        case(table, &format!("utf8 CJK {length}"), texts(&cjk, length));
        case(table, &format!("utf8 mixed {length}"), texts(&MIXED, length));
    }
    for length in [12, 64, 4000] {
        case(table, &format!("utf8 damaged ASCII {length}"), damaged(texts(&letters, length)));
        case(table, &format!("utf8 damaged mixed {length}"), damaged(texts(&MIXED, length)));
    }
    case(table, "utf8 damaged names", damaged(names()));
}

/// The texts one behind the other, so that they start at any place of a word.
fn case(table: &mut Table, name: &str, texts: Vec<Vec<u8>>) {
    let ours: unsafe extern "C" fn(*const u8, usize) -> u32 = black_box(ffi::smk_utf8_check);
    let rust: fn(&[u8]) -> Result<&str, Utf8Error> = black_box(std::str::from_utf8);
    let all = texts.concat();
    let mut start = 0;
    let parts: Vec<&[u8]> = texts
        .iter()
        .map(|text| {
            start += text.len();
            &all[start - text.len()..start]
        })
        .collect();
    table.case(
        name,
        parts.len(),
        || {
            for part in &parts {
                // SAFETY: a slice with its length.
                look(&[u64::from(unsafe { ours(part.as_ptr(), part.len()) })]);
            }
        },
        || {
            for part in &parts {
                look(&[u64::from(rust(part).is_err())]);
            }
        },
    );
}
