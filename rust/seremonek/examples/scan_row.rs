//! The product at work: a scan's row is written, read and asked; then it is damaged, byte by byte, and the damage is refused.
//!
//! `make show` prints this; `scan_row.txt` has what it prints, and a test holds the two together.

use seremonek::{Refusal, cell, interior_page, overflow};
use std::collections::BTreeMap;
use std::fmt::Write;

fn hex(bytes: &[u8]) -> String {
    bytes.iter().map(|byte| format!("{byte:02X}")).collect::<Vec<_>>().join(" ")
}

/// What the call answered, or what is wrong, where, and by which number.
fn said<T: std::fmt::Debug>(answer: Result<T, Refusal>) -> String {
    match answer {
        Ok(answer) => format!("{answer:?}"),
        Err(refusal) => refusal.to_string(),
    }
}

/// The story, as text.
pub fn told() -> String {
    let mut text = String::new();
    let mut tell = |line: String| writeln!(text, "{line}").expect("a string takes every line");

    // A scan under a temporary name: accession number, name, contrast given, dose, and no chart yet.
    let scan = cell::ValueList::of(&[
        cell::Value::Integer(70_412),
        cell::Value::Text("TEMP-0042 Ö"),
        cell::Value::Bool(true),
        cell::Value::Real(12.5),
        cell::Value::Null,
    ]);
    let mut page = [0xEE; 48];
    tell(format!("A row of five columns takes {} bytes.", said(cell::encoded_len(17, &scan))));
    tell(format!("Into 20 bytes of room:      {}", said(cell::encode(17, &scan, &mut page[..20]))));
    tell(format!("  and of the 48 bytes {} are as they were.", page.iter().filter(|byte| **byte == 0xEE).count()));
    let size = cell::encode(17, &scan, &mut page).expect("48 bytes are room enough");
    tell(format!("Written as row 17:          {}", hex(&page[..size])));
    tell(String::new());

    tell(format!("Its head:                   {}", said(cell::decode(&page, 0))));
    for column in 0..=5 {
        tell(format!("Column {column}:                   {}", said(cell::value(&page, 0, column))));
    }
    tell(format!("One byte short:             {}", said(cell::decode(&page[..size - 1], 0))));
    tell(String::new());

    // Every byte, each replaced by all others: what is said of the row then.
    let mut counts: BTreeMap<u32, (String, u32)> = BTreeMap::new();
    for at in 0..size {
        for byte in (0..=255).filter(|byte| *byte != page[at]) {
            let mut damaged = page;
            damaged[at] = byte;
            let (number, words) = match cell::decode(&damaged, 0) {
                Ok(_) => (0, "read as another good row".to_string()),
                Err(refusal) => (refusal.number(), refusal.to_string()),
            };
            counts.entry(number).or_insert((words, 0)).1 += 1;
        }
    }
    tell(format!("Of {} copies with one byte wrong:", size * 255));
    for (words, count) in counts.values() {
        tell(format!("{count:6}  {words}"));
    }
    tell(String::new());

    // What stands on a page for a row that is kept in a chain, and what leads to the page.
    let reference = overflow::OverflowRef { rowid: 18, total: 5_000, first_page: 9 };
    let size = overflow::encode(reference, &mut page).expect("48 bytes are room enough");
    tell(format!("A reference to row 18:      {}", hex(&page[..size])));
    tell(format!("  read as a paged entry:    {}", said(overflow::decode_paged(&page, 0))));
    tell(format!("  read as a row:            {}", said(cell::decode(&page, 0))));
    let divider = interior_page::InteriorCell { divider: 18, child: 3 };
    let size = interior_page::encode(divider, &mut page).expect("48 bytes are room enough");
    tell(format!("The divider above it:       {}", hex(&page[..size])));
    tell(format!("  read:                     {}", said(interior_page::decode(&page, 0))));
    text
}

#[allow(dead_code)] // the test asks for the text alone
fn main() {
    print!("{}", told());
}
