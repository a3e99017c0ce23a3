//! The refusals of document 01, by number.

use std::fmt;

/// Why a call was refused. The number is the answer; the words are document 01's.
#[derive(Clone, Copy, PartialEq, Eq, PartialOrd, Ord, Hash)]
pub struct Refusal(u32);

/// Document 01's words, from number 1 on.
const WORDS: [&str; 27] = [
    "varint past the end",
    "eleventh byte wanted",
    "entry past the end",
    "no kind byte",
    "wrong kind",
    "entry cut short",
    "value cut short",
    "not UTF-8",
    "unknown tag",
    "bytes left over",
    "page not well-formed",
    "slot or column at or above count",
    "rowid or divider present",
    "does not fit",
    "bad value list",
    "output shorter than the answer",
    "nothing to chain",
    "too few page numbers",
    "unusable number",
    "page number at least P",
    "type not T",
    "payload above 4,089",
    "chain never ends",
    "chain length differs",
    "payload not 4,089 bytes; store not 1 to 4,096 whole pages; a value list for writing with over 65,536 kinds or words, \
     or over 16 MiB of data; spill output under 26 bytes",
    "not one whole entry of that rowid (spill: not one whole local entry)",
    "`Value::Null` inside a value",
];

impl Refusal {
    /// The refusals that document 01 lists are 1 to this.
    pub const LAST: u32 = WORDS.len() as u32;

    /// The refusal behind a call's result, or nothing where the call was accepted.
    pub fn of(result: u32) -> Result<(), Refusal> {
        if result == 0 { Ok(()) } else { Err(Refusal(result)) }
    }

    /// Document 01's number.
    pub fn number(self) -> u32 {
        self.0
    }

    /// Document 01's words.
    pub fn words(self) -> &'static str {
        WORDS.get(self.0.wrapping_sub(1) as usize).copied().unwrap_or("a number that document 01 does not list")
    }
}

impl fmt::Display for Refusal {
    fn fmt(&self, f: &mut fmt::Formatter<'_>) -> fmt::Result {
        write!(f, "refusal {}: {}", self.number(), self.words())
    }
}

impl fmt::Debug for Refusal {
    fn fmt(&self, f: &mut fmt::Formatter<'_>) -> fmt::Result {
        fmt::Display::fmt(self, f)
    }
}

impl std::error::Error for Refusal {}

#[cfg(test)]
mod tests {
    use super::*;

    #[test]
    fn every_number_has_words_of_its_own() {
        let mut seen = std::collections::HashSet::new();
        for number in 1..=Refusal::LAST {
            let refusal = Refusal::of(number).unwrap_err();
            assert_eq!(refusal.number(), number);
            assert!(seen.insert(refusal.words()), "{refusal}");
        }
        assert_eq!(seen.len(), 27);
    }

    #[test]
    fn it_prints_its_number_and_its_words() {
        assert_eq!(Refusal(1).to_string(), "refusal 1: varint past the end");
        assert_eq!(Refusal(16).to_string(), "refusal 16: output shorter than the answer");
        assert_eq!(Refusal(27).to_string(), "refusal 27: `Value::Null` inside a value");
        assert_eq!(Refusal(28).to_string(), "refusal 28: a number that document 01 does not list");
    }
}
