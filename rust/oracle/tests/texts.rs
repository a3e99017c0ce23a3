//! The table of error texts is complete and says one thing: held to the sources of the included files.
#![cfg(not(oracle_missing))]

use oracle::texts::{Meaning, TABLE, matches, number};
use std::collections::BTreeSet;
use std::fs;
use std::path::Path;

const FILES: [&str; 7] = ["varint.rs", "cell.rs", "page.rs", "allocator.rs", "overflow.rs", "interior_page.rs", "table_page.rs"];

/// The texts of every `SQLRiteError::..(..)` that a file makes, above its tests.
fn texts_of(source: &str) -> Vec<String> {
    let above_tests = source.split("#[cfg(test)]").next().unwrap();
    let mut found = Vec::new();
    let mut rest = above_tests;
    while let Some(at) = rest.find("SQLRiteError::") {
        rest = &rest[at + "SQLRiteError::".len()..];
        let open = rest.find('(').expect("a variant with a text");
        assert_eq!(&rest[..open], "Internal", "an error that is not Internal");
        let from = rest.find('"').expect("a text");
        let between: String = rest[open + 1..from].split_whitespace().collect();
        assert!(between.is_empty() || between == "format!(", "a text that this test cannot read: {between}");
        let (text, length) = literal(&rest[from + 1..]);
        found.push(text);
        rest = &rest[from + 1 + length..];
    }
    found
}

/// A string literal's value and its length in the source, from after the opening quote.
fn literal(source: &str) -> (String, usize) {
    let mut text = String::new();
    let mut chars = source.char_indices().peekable();
    while let Some((at, c)) = chars.next() {
        match c {
            '"' => return (text, at + 1),
            '\\' => match chars.next().expect("an escape").1 {
                // A line that is continued drops the newline and the indent.
                '\n' => while chars.next_if(|(_, c)| c.is_whitespace()).is_some() {},
                escaped @ ('"' | '\\') => text.push(escaped),
                other => panic!("an escape that this test cannot read: {other}"),
            },
            _ => text.push(c),
        }
    }
    panic!("a text with no end");
}

#[test]
fn no_text_of_the_sources_is_missing_and_no_row_is_idle() {
    let mut in_sources = BTreeSet::new();
    for file in FILES {
        let source = fs::read_to_string(Path::new(oracle::FOLDER).join("src/sql/pager").join(file)).unwrap();
        in_sources.extend(texts_of(&source).into_iter().map(|text| (file.to_string(), text)));
    }
    let in_table: BTreeSet<_> = TABLE.iter().map(|(file, text, _)| (file.to_string(), text.to_string())).collect();
    assert_eq!(in_table.len(), TABLE.len(), "a row stands twice");
    let missing: Vec<_> = in_sources.difference(&in_table).collect();
    let idle: Vec<_> = in_table.difference(&in_sources).collect();
    assert!(missing.is_empty(), "texts of the sources that the table lacks: {missing:#?}");
    assert!(idle.is_empty(), "rows that no source has: {idle:#?}");
    assert!(in_sources.len() > 40, "the sources were read: {}", in_sources.len());
}

#[test]
fn each_text_has_one_meaning() {
    for (file, pattern, meaning) in TABLE {
        let text = pattern.split('{').enumerate().fold(String::new(), |text, (i, part)| match (i, part.find('}')) {
            (0, _) | (_, None) => text + part,
            (_, Some(end)) => text + "17" + &part[end + 1..],
        });
        for (other_file, other, other_meaning) in TABLE {
            if matches(other, &text) {
                assert_eq!(meaning, other_meaning, "{file} {pattern} against {other_file} {other}");
            }
        }
        match meaning {
            Meaning::Refusal(n) => assert_eq!(number(&text), Some(*n), "{text}"),
            Meaning::Unreached(_) => assert_eq!(number(&text), None, "{text}"),
        }
    }
}

#[test]
fn numbers_are_document_01s() {
    for (_, text, meaning) in TABLE {
        if let Meaning::Refusal(n) = meaning {
            assert!((1..=27).contains(n), "{text}");
        }
    }
    assert_eq!(number("no such text"), None);
    assert_eq!(number("varint read past buffer end at offset"), None);
    assert_eq!(number("and varint read past buffer end at offset 3"), None);
    assert_eq!(number("slot 3 out of bounds (count = 3) or so"), None);
}
