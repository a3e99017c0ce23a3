//! Inputs that more than one layer tries.

use crate::random::Random;

/// Numbers on either side of every power of two, and so on either side of every limit of a varint, signed and unsigned; the ends included.
pub fn limits() -> Vec<u64> {
    let mut numbers: Vec<u64> = (0..64).flat_map(|k| [-1, 0, 1].map(|near| (1u64 << k).wrapping_add_signed(near))).collect();
    numbers.extend(numbers.clone().iter().map(|n| n.wrapping_neg()));
    numbers.sort_unstable();
    numbers.dedup();
    numbers
}

/// `value` as a varint in exactly `length` bytes, be they more than it needs. Written here anew, so that it leans on neither side.
pub fn leb_in(value: u64, length: usize) -> Vec<u8> {
    let group = |i: usize| (value.checked_shr(7 * i as u32).unwrap_or(0) & 0x7F) as u8;
    (0..length).map(|i| group(i) | if i + 1 < length { 0x80 } else { 0 }).collect()
}

/// In the fewest bytes.
pub fn leb(value: u64) -> Vec<u8> {
    leb_longer(value, 0)
}

/// In so many bytes more than it needs; in ten at most.
pub fn leb_longer(value: u64, longer: usize) -> Vec<u8> {
    let fewest = (1..=10).find(|k| *k == 10 || value >> (7 * k) == 0).unwrap();
    leb_in(value, (fewest + longer).min(10))
}

/// The unsigned number that a signed one is written as.
pub fn zigzag(value: i64) -> u64 {
    if value < 0 { !(value as u64) * 2 + 1 } else { value as u64 * 2 }
}

/// The pattern of the signed number that is written as `value` is; so the limits of the one are those of the other.
pub fn signed_like(value: u64) -> u64 {
    (value >> 1) ^ (value & 1).wrapping_neg()
}

/// Every byte.
pub const ALL: [u8; 256] = {
    let mut all = [0; 256];
    let mut i = 0;
    while i < 256 {
        all[i] = i as u8;
        i += 1;
    }
    all
};

/// All buffers of up to 3 bytes, each read at every position from 0 to one past its end, and at some that are far out.
///
/// Of the 3-byte buffers a run that is not `whole` reads all at position 0, and at the later positions those with some of the first bytes.
pub fn every_short(whole: bool, mut read: impl FnMut(&[u8], usize)) {
    const FAR: [usize; 4] = [usize::MAX, usize::MAX - 1, usize::MAX / 2 + 1, 1 << 32];
    for far in FAR {
        read(&[], far);
        read(&[0x80, 0x01], far);
    }
    for length in 0..3usize {
        for word in 0..1u32 << (8 * length) {
            for pos in 0..=length + 1 {
                read(&word.to_be_bytes()[4 - length..], pos);
            }
        }
    }
    for word in 0..1u32 << 24 {
        let buf = &word.to_be_bytes()[1..];
        read(buf, 0);
        if whole || matches!(buf[0], 0x00 | 0x01 | 0x7F | 0x80 | 0xFF) {
            (1..=4).for_each(|pos| read(buf, pos));
        }
    }
}

/// `front` with every sequence of up to `length` of `bytes` behind it.
pub fn every_end(front: &[u8], bytes: &[u8], length: usize, mut try_it: impl FnMut(&[u8])) {
    fn ends(all: &mut Vec<u8>, bytes: &[u8], length: usize, try_it: &mut impl FnMut(&[u8])) {
        try_it(all);
        if length > 0 {
            for byte in bytes {
                all.push(*byte);
                ends(all, bytes, length - 1, try_it);
                all.pop();
            }
        }
    }
    ends(&mut front.to_vec(), bytes, length, &mut try_it);
}

/// The same as bodies, each behind its length.
pub fn every_body(front: &[u8], bytes: &[u8], length: usize, mut try_it: impl FnMut(&[u8])) {
    assert!(front.len() + length < 0x80, "the length is a varint of one byte");
    let mut entry = Vec::new();
    every_end(front, bytes, length, |body| {
        entry.clear();
        entry.push(body.len() as u8);
        entry.extend_from_slice(body);
        try_it(&entry);
    });
}

/// A copy with something wrong in it: a bit turned, a byte replaced, dropped or put in, or the end cut off.
pub fn damaged(good: &[u8], random: &mut Random) -> Vec<u8> {
    let mut bad = good.to_vec();
    if bad.is_empty() {
        return bad;
    }
    let at = random.below(bad.len() as u64) as usize;
    match random.below(5) {
        0 => bad[at] ^= 1 << random.below(8),
        1 => bad[at] = random.byte(),
        2 => drop(bad.remove(at)),
        3 => bad.insert(at, random.byte()),
        _ => bad.truncate(at),
    }
    bad
}

#[cfg(test)]
mod tests {
    use super::*;
    use std::collections::HashSet;

    #[test]
    fn every_short_buffer_is_read_at_its_start() {
        let mut counts = [0u32; 4];
        every_short(false, |buf, pos| {
            if pos == 0 {
                // They come in order, so that none comes twice.
                let number = buf.iter().fold(0, |number, byte| number << 8 | u32::from(*byte));
                assert_eq!(number, counts[buf.len()]);
                counts[buf.len()] += 1;
            }
        });
        assert_eq!(counts, [1, 1 << 8, 1 << 16, 1 << 24]);
    }

    #[test]
    fn every_body_stands_behind_its_length() {
        let mut bodies = HashSet::new();
        every_body(&[2, 0x80], &ALL, 2, |entry| {
            assert_eq!(usize::from(entry[0]), entry.len() - 1);
            assert!(entry[1..].starts_with(&[2, 0x80]) && entry.len() <= 5);
            assert!(bodies.insert(entry.to_vec()), "{entry:?} comes twice");
        });
        assert_eq!(bodies.len(), 1 + (1 << 8) + (1 << 16));
    }
}
