//! References, paged entries and interior cells of document 01 through the safe bindings.

use seremonek::interior_page::{self, InteriorCell};
use seremonek::overflow::{self, OverflowRef, PagedEntry};

fn number<T: std::fmt::Debug>(result: Result<T, seremonek::Refusal>) -> u32 {
    result.unwrap_err().number()
}

/// Rowid 7, total 5,000, page 9.
const REFERENCE: [u8; 9] = [0x08, 0x02, 0x0E, 0x88, 0x27, 0x09, 0x00, 0x00, 0x00];
/// Rowid 1, Integer 5, null, Text A, Bool true.
const LOCAL: [u8; 12] = [0x0B, 0x01, 0x02, 0x04, 0x02, 0x00, 0x0A, 0x02, 0x01, 0x41, 0x03, 0x01];
/// Divider 10, child 3.
const DIVIDER: [u8; 7] = [0x06, 0x03, 0x14, 0x03, 0x00, 0x00, 0x00];

#[test]
fn worked_entries() {
    let reference = OverflowRef { rowid: 7, total: 5000, first_page: 9 };
    let mut out = [0xEE; 27];
    assert_eq!(overflow::encode(reference, &mut out), Ok(9));
    assert_eq!(out[..10], [&REFERENCE[..], &[0xEE]].concat());
    assert_eq!(overflow::decode(&out, 0), Ok((reference, 9)));
    assert_eq!(overflow::decode_paged(&out, 0), Ok((PagedEntry::Overflow(reference), 9)));
    assert_eq!(overflow::decode_paged(&LOCAL, 0), Ok((PagedEntry::Local { rowid: 1, columns: 4 }, 12)));
    assert_eq!(PagedEntry::Overflow(reference).rowid(), 7);

    let cell = InteriorCell { divider: 10, child: 3 };
    let mut out = [0xEE; 17];
    assert_eq!(interior_page::encode(cell, &mut out), Ok(7));
    assert_eq!(out[..8], [&DIVIDER[..], &[0xEE]].concat());
    assert_eq!(interior_page::decode(&out, 0), Ok((cell, 7)));
}

#[test]
fn the_longest() {
    let reference = OverflowRef { rowid: i64::MIN, total: u64::MAX, first_page: u32::MAX };
    let cell = InteriorCell { divider: i64::MIN, child: u32::MAX };
    let mut out = [0xEE; 26];
    assert_eq!(number(overflow::encode(reference, &mut out[..25])), 16);
    assert_eq!(number(interior_page::encode(cell, &mut out[..15])), 16);
    assert_eq!(out, [0xEE; 26]);
    assert_eq!(interior_page::encode(cell, &mut out[..16]), Ok(16));
    assert_eq!(interior_page::decode(&out, 0), Ok((cell, 16)));
    assert_eq!(overflow::encode(reference, &mut out), Ok(26));
    assert_eq!(overflow::decode(&out, 0), Ok((reference, 26)));
}

/// Document 01's order of checks, and its readings of an empty body.
#[test]
fn refusals() {
    for (buf, reference, entry, cell) in [
        (&[][..], 1, 1, 1),
        (&[0x80], 1, 1, 1),
        (&[0xFF; 10], 2, 2, 2),
        (&[0x05], 3, 4, 3),
        (&[0x05, 0x02], 3, 3, 3),
        (&[0x05, 0x03], 3, 5, 3),
        (&[0x00], 5, 4, 5),
        (&[0x00, 0x01], 5, 4, 5),
        (&[0x00, 0x02], 5, 5, 5),
        (&[0x01, 0x02], 1, 1, 5),
        (&[0x02, 0x02, 0x00], 1, 1, 5),
        (&[0x06, 0x02, 0x00, 0x00, 0x00, 0x00, 0x00], 6, 6, 5),
        (&[0x08, 0x02, 0x00, 0x00, 0x00, 0x00, 0x00, 0x00, 0x00], 10, 10, 5),
        (&[0x05, 0x03, 0x00, 0x00, 0x00, 0x00], 5, 5, 6),
        (&[0x07, 0x03, 0x00, 0x00, 0x00, 0x00, 0x00, 0x00], 5, 5, 10),
    ] {
        assert_eq!(number(overflow::decode(buf, 0)), reference, "{buf:x?}");
        assert_eq!(number(overflow::decode_paged(buf, 0)), entry, "{buf:x?}");
        assert_eq!(number(interior_page::decode(buf, 0)), cell, "{buf:x?}");
    }
    assert_eq!(number(overflow::decode_paged(&[0x04, 0x01, 0x00, 0x01, 0x00], 0)), 7);
    assert_eq!(number(overflow::decode(&REFERENCE, usize::MAX)), 1);
}
