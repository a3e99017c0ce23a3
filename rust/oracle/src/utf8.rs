//! The originals ask std whether a text's bytes are UTF-8 (cell.rs, the Text arm of `decode_value`).

use crate::Reply;

pub fn check(bytes: &[u8]) -> Reply<()> {
    match std::str::from_utf8(bytes) {
        Ok(_) => Reply::Accepted(()),
        Err(_) => Reply::Refused(8),
    }
}
