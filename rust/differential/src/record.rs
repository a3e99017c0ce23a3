//! Recording: the originals' answers on a fixed sample, in plain files that `crates/replay` replays where no Rust is at hand.
//!
//! A file holds one layer. Lines that start with `#` are for the reader. Each other line is one call, its fields parted by single spaces:
//!
//! ```text
//! call  parameters..  refusal                     a refused call: its number; nothing lent has changed
//! call  parameters..  0  values..  outputs..      an accepted call: its answer array, and each output after it
//! ```
//!
//! `call` counts the layer's calls from 1, in hexadecimal as all numbers are, without leading zeros; signed numbers are their 64-bit patterns. The
//! parameters stand in the order of the C interface, without lengths and without the answer array. Bytes are pairs of hexadecimal digits, in which
//! `_NNNN` goes on by NNNN (hexadecimal) places and leaves what is there, zeros in a fresh buffer, and `xNNNNhh` is hh that many times. `-` is no bytes.
//! An output after the call is written over the output before it, so only what changed is in the field, and `-` says that nothing did.

use crate::LAYERS;
use crate::frame::{Call, Expected, Input, Layer, Part};
use std::fmt::Write;
use std::fs;
use std::path::Path;

/// What the replaying program has room for: a file, and a slice in it (four pages of a store).
const MOST_FILE: usize = 0x40000;
const MOST_SLICE: usize = 0x4000;

pub fn main(words: &[String]) -> Result<(), String> {
    let [folder] = words else {
        return Err("record takes the folder to write to: crates/replay".into());
    };
    let folder = Path::new(folder);
    let data = folder.join("data");
    let failed = |error: std::io::Error| format!("{}: {error}", folder.display());
    fs::create_dir_all(&data).map_err(failed)?;
    let mut stdout = String::new();
    let mut total = 0;
    for layer in LAYERS {
        let (text, counts) = layer_text(layer)?;
        fs::write(data.join(format!("{}.txt", layer.name)), text).map_err(failed)?;
        for (call, count) in layer.calls.iter().zip(counts) {
            writeln!(stdout, "{} {count} agree, 0 differ", call.name).unwrap();
            total += count;
        }
    }
    writeln!(stdout, "total {total} agree, 0 differ").unwrap();
    fs::write(folder.join("stdout"), stdout).map_err(failed)?;
    println!("recorded {total} answers in {}", data.display());
    Ok(())
}

/// The file of a layer, and how many cases of each of its calls it holds.
fn layer_text(layer: &Layer) -> Result<(String, Vec<usize>), String> {
    let mut lines: Vec<String> = Vec::new();
    let mut reached = vec![Vec::new(); layer.calls.len()];
    let mut counts = vec![0; layer.calls.len()];
    (layer.sample)(&mut |name, input| {
        let place = layer.calls.iter().position(|call| call.name == name).unwrap_or_else(|| panic!("no call {name}"));
        let expected = (layer.calls[place].rust)(input);
        let line = line(place + 1, &layer.calls[place], input, &expected);
        // A limit can come up twice; its answer is recorded once.
        if !lines.contains(&line) {
            reached[place].push(expected.number);
            counts[place] += 1;
            lines.push(line);
        }
    });
    for (call, reached) in layer.calls.iter().zip(&reached) {
        if let Some(number) = call.answers.iter().find(|number| !reached.contains(number)) {
            return Err(format!("the sample of {} has no case with the answer {number}", call.name));
        }
    }
    let mut text = format!("# {}: answers of the original Rust, one call to a line.\n", layer.name);
    text +=
        "# Made by `make record`, which runs `differential record`; rust/differential/src/record.rs has the notation. Not to be edited.\n";
    for (place, call) in layer.calls.iter().enumerate() {
        writeln!(text, "# {:x} {}: {:?}, {} values", place + 1, call.name, call.parts, call.values).unwrap();
    }
    lines.iter().for_each(|line| writeln!(text, "{line}").unwrap());
    if text.len() > MOST_FILE {
        return Err(format!("{}: {} bytes, and the replaying program has room for {MOST_FILE}", layer.name, text.len()));
    }
    Ok((text, counts))
}

fn line(number: usize, call: &Call, input: &Input, expected: &Expected) -> String {
    let mut numbers = input.numbers.iter();
    let mut bytes = input.bytes.iter();
    let mut outputs = input.outputs.iter();
    let mut fields = vec![format!("{number:x}")];
    for part in call.parts {
        fields.push(match part {
            Part::Number => format!("{:x}", numbers.next().unwrap()),
            Part::Bytes => fresh(bytes.next().unwrap()),
            Part::Output => fresh(outputs.next().unwrap()),
        });
    }
    fields.push(format!("{:x}", expected.number));
    if expected.number == 0 {
        fields.extend(expected.values[..call.values].iter().map(|value| format!("{value:x}")));
        let outputs = call.slices(Part::Output);
        fields.extend(input.outputs.iter().zip(&expected.written).take(outputs).map(|(before, written)| changed(before, written)));
    }
    fields.join(" ")
}

/// Bytes for a buffer of zeros.
fn fresh(bytes: &[u8]) -> String {
    assert!(bytes.len() <= MOST_SLICE);
    field(&vec![0; bytes.len()], bytes)
}

/// What stands at the start of an output afterwards, over what stood there before; the end that is the same is left out.
fn changed(before: &[u8], written: &[u8]) -> String {
    let end = (0..written.len()).rev().find(|i| written[*i] != before[*i]).map_or(0, |last| last + 1);
    field(&before[..end], &written[..end])
}

fn field(before: &[u8], bytes: &[u8]) -> String {
    // Shorter runs are as short in plain digits.
    const SHORT: usize = 4;
    if bytes.is_empty() {
        return "-".into();
    }
    let mut text = String::new();
    let mut at = 0;
    while at < bytes.len() {
        let kept = (at..bytes.len()).take_while(|i| bytes[*i] == before[*i]).count();
        let run = bytes[at..].iter().take_while(|byte| **byte == bytes[at]).count();
        if kept >= SHORT {
            write!(text, "_{kept:04x}").unwrap();
            at += kept;
        } else if run >= SHORT {
            write!(text, "x{run:04x}{:02x}", bytes[at]).unwrap();
            at += run;
        } else {
            write!(text, "{:02x}", bytes[at]).unwrap();
            at += 1;
        }
    }
    text
}

#[cfg(test)]
mod tests {
    use super::*;

    /// Reads a field of bytes into `buf`, over what stands there, and answers how many places it covers.
    fn fill(field: &str, buf: &mut Vec<u8>) -> usize {
        let hex = |from: usize, to: usize| usize::from_str_radix(&field[from..to], 16).unwrap();
        let (mut at, mut n) = (0, 0);
        while at < field.len() && field != "-" {
            let (count, byte, next) = match &field[at..=at] {
                "_" => (hex(at + 1, at + 5), None, at + 5),
                "x" => (hex(at + 1, at + 5), Some(hex(at + 5, at + 7) as u8), at + 7),
                _ => (1, Some(hex(at, at + 2) as u8), at + 2),
            };
            buf.resize(buf.len().max(n + count), 0);
            byte.into_iter().for_each(|byte| buf[n..n + count].fill(byte));
            (at, n) = (next, n + count);
        }
        n
    }

    #[test]
    fn what_is_written_is_read_back() {
        let mut random = crate::random::Random::new(3);
        let mut longest = 0;
        for _ in 0..2000 {
            // Few values, so that runs, zeros and bytes that stay as they were all come up.
            let length = random.below(60) as usize;
            let some = |random: &mut crate::random::Random| -> Vec<u8> {
                let mut bytes = Vec::new();
                while bytes.len() < length {
                    let run = 1 + random.below(9) as usize;
                    let byte = *random.pick(&[0, 0, 1, 0xFF]);
                    bytes.extend(vec![byte; run]);
                }
                bytes.truncate(length);
                bytes
            };
            let before = some(&mut random);
            let mut written = some(&mut random);
            written.truncate(random.below(length as u64 + 1) as usize);

            let text = fresh(&before);
            let mut read = Vec::new();
            assert_eq!(fill(&text, &mut read), before.len(), "{text}");
            assert_eq!(read, before, "{text}");
            assert!(!text.is_empty() && !text.contains(' '));

            let text = changed(&before, &written);
            fill(&text, &mut read);
            assert_eq!(read[..written.len()], written, "{text}");
            assert_eq!(read[written.len()..], before[written.len()..], "{text}");
            longest = longest.max(text.len());
        }
        assert!(longest > 20);
    }

    #[test]
    fn the_notation_by_example() {
        assert_eq!(fresh(&[]), "-");
        assert_eq!(fresh(&[0xAC, 0x02]), "ac02");
        let mut page = vec![0; 4089];
        page[..4].copy_from_slice(&[0x00, 0x00, 0xF9, 0x0F]);
        assert_eq!(fresh(&page), "0000f90f_0ff5");
        assert_eq!(fresh(&[0xFF; 11]), "x000bff");
        let mut after = page.clone();
        after[..6].copy_from_slice(&[0x01, 0x00, 0xF5, 0x0F, 0xF5, 0x0F]);
        after[4085..].copy_from_slice(&[0x03, 0x01, 0x00, 0x00]);
        assert_eq!(changed(&page, &after), "0100f50ff50f_0fef0301");
        assert_eq!(changed(&page, &page), "-");
    }
}
