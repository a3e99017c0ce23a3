//! From the originals' error texts to document 01's refusal numbers: one row for each `SQLRiteError::Internal(..)` of the included files.
//! `tests/texts.rs` fails where a text of the sources has no row, and where a row has no text.

use std::sync::LazyLock;

/// What a text stands for.
#[derive(Clone, Copy, Debug, PartialEq, Eq)]
pub enum Meaning {
    /// The refusal at the same check.
    Refusal(u32),
    /// No call of document 01 can come here; the reason.
    Unreached(&'static str),
}

use Meaning::{Refusal, Unreached};

/// File (of `src/sql/pager`), text as the source writes it, with `{..}` where a value goes, and meaning. No text means different numbers in different calls,
/// so the text alone decides.
pub const TABLE: &[(&str, &str, Meaning)] = &[
    ("varint.rs", "varint read past buffer end at offset {}", Refusal(1)),
    ("varint.rs", "varint u64 overflow (more than 10 bytes)", Refusal(2)),
    ("varint.rs", "varint u64 overflow (no terminator in 10 bytes)", Refusal(2)),
    ("cell.rs", "paged cell truncated before kind tag", Refusal(4)),
    ("cell.rs", "cell length overflow", Refusal(3)),
    ("cell.rs", "cell extends past buffer: needs bytes {body_start}..{body_end}, have {}", Refusal(3)),
    ("cell.rs", "paged cell body is empty (no kind tag)", Refusal(4)),
    ("cell.rs", "Cell::decode called on non-local entry (kind_tag = {kind_tag:#x})", Refusal(5)),
    ("cell.rs", "cell body truncated before null bitmap ends", Refusal(6)),
    ("cell.rs", "cell body had {} trailing bytes after last value", Refusal(10)),
    ("cell.rs", "Null values are encoded via the null bitmap, not a value block", Refusal(27)),
    ("cell.rs", "value block truncated at offset {pos}", Refusal(7)),
    ("cell.rs", "Real value truncated: needs 8 bytes", Refusal(7)),
    ("cell.rs", "Text value truncated", Refusal(7)),
    ("cell.rs", "Text value is not valid UTF-8: {e}", Refusal(8)),
    ("cell.rs", "Bool value truncated", Refusal(7)),
    ("cell.rs", "Vector value truncated: needs {dim} × 4 = {} bytes", Refusal(7)),
    ("cell.rs", "unknown value tag {other:#x} at offset {pos}", Refusal(9)),
    ("overflow.rs", "overflow ref length overflow", Refusal(3)),
    ("overflow.rs", "overflow ref extends past buffer: needs {body_start}..{body_end}, have {}", Refusal(3)),
    ("overflow.rs", "OverflowRef::decode called on non-overflow entry (kind_tag = {:#x})", Refusal(5)),
    ("overflow.rs", "overflow ref truncated before first_overflow_page", Refusal(6)),
    ("overflow.rs", "overflow ref had {} trailing bytes", Refusal(10)),
    (
        "overflow.rs",
        "PagedEntry::decode at offset {pos} got kind tag {other:#x} ({}); expected KIND_LOCAL (0x01) or KIND_OVERFLOW (0x02). \
         The caller is reading a {} page with the table-leaf decoder.",
        Refusal(5),
    ),
    ("overflow.rs", "refusing to write an empty overflow chain — caller should inline instead", Refusal(17)),
    ("overflow.rs", "overflow chain references missing page {current}", Refusal(20)),
    ("overflow.rs", "page {current} was supposed to be Overflow but is type {ty_byte}", Refusal(21)),
    ("overflow.rs", "overflow page {current} reports payload_len {payload_len} > max", Refusal(22)),
    ("overflow.rs", "overflow chain produced {} bytes, OverflowRef claimed {total_body_len}", Refusal(24)),
    (
        "overflow.rs",
        "overflow page payload {} exceeds max {PAYLOAD_PER_PAGE}",
        Unreached("its one caller cuts the bytes into pieces of at most that length"),
    ),
    ("interior_page.rs", "interior cell length overflow", Refusal(3)),
    ("interior_page.rs", "interior cell extends past buffer: needs {body_start}..{body_end}, have {}", Refusal(3)),
    ("interior_page.rs", "InteriorCell::decode called on non-interior entry (kind_tag = {:#x})", Refusal(5)),
    ("interior_page.rs", "interior cell truncated before child_page", Refusal(6)),
    ("interior_page.rs", "interior cell had {} trailing bytes", Refusal(10)),
    ("interior_page.rs", "slot {slot} out of bounds (count = {})", Refusal(12)),
    ("interior_page.rs", "duplicate interior divider {divider_rowid}", Refusal(13)),
    ("interior_page.rs", "interior page full: cell of {} bytes + slot wouldn't fit in {} bytes", Refusal(14)),
    ("table_page.rs", "slot {slot} out of bounds (count = {})", Refusal(12)),
    ("table_page.rs", "duplicate rowid {rowid} — caller must delete before re-inserting", Refusal(13)),
    ("table_page.rs", "page full: entry of {} bytes + slot wouldn't fit in {} bytes of free space", Refusal(14)),
    ("page.rs", "unknown page type tag {other}", Unreached("no function that comes over asks for a page type by its number")),
];

/// A row whose text is cut at its holes.
struct Row {
    pieces: Vec<&'static str>,
    meaning: Meaning,
}

/// The rows by the first byte of their texts: a run of `differential` asks for some hundred million texts.
static ROWS: LazyLock<[Vec<Row>; 256]> = LazyLock::new(|| {
    let mut rows = [const { Vec::new() }; 256];
    for (_, pattern, meaning) in TABLE {
        let first = pattern.as_bytes()[0];
        assert_ne!(first, b'{', "a text that starts with a value has no first byte to be found by: {pattern}");
        rows[usize::from(first)].push(Row { pieces: pieces(pattern).collect(), meaning: *meaning });
    }
    rows
});

/// The refusal number of an error's text, or nothing where no row gives one.
pub fn number(text: &str) -> Option<u32> {
    let rows = &ROWS[usize::from(*text.as_bytes().first()?)];
    rows.iter().find(|row| fits(row.pieces.iter().copied(), text)).and_then(|row| match row.meaning {
        Refusal(number) => Some(number),
        Unreached(_) => None,
    })
}

/// Whether `text` is `pattern` with something for each `{..}`.
pub fn matches(pattern: &str, text: &str) -> bool {
    fits(pieces(pattern), text)
}

fn fits<'a>(mut pieces: impl Iterator<Item = &'a str>, text: &str) -> bool {
    let first = pieces.next().unwrap_or("");
    let Some(mut rest) = text.strip_prefix(first) else {
        return false;
    };
    let mut ends_in_a_hole = false;
    for piece in pieces {
        ends_in_a_hole = piece.is_empty();
        match find(piece, rest) {
            Some(at) => rest = &rest[at + piece.len()..],
            None => return false,
        }
    }
    rest.is_empty() || ends_in_a_hole
}

/// Where `piece` first stands in `text`: `str::find` prepares for longer texts than these.
fn find(piece: &str, text: &str) -> Option<usize> {
    let Some(first) = piece.as_bytes().first() else {
        return Some(0);
    };
    (0..text.len()).find(|at| text.as_bytes()[*at] == *first && text.as_bytes()[*at..].starts_with(piece.as_bytes()))
}

/// The parts of a pattern between its holes, first and last included though empty.
fn pieces(pattern: &str) -> impl Iterator<Item = &str> {
    pattern.split('{').enumerate().map(|(i, part)| match (i, part.find('}')) {
        (0, _) | (_, None) => part,
        (_, Some(end)) => &part[end + 1..],
    })
}
