//! Texts of document 01 through the safe bindings.

use seremonek::utf8::{check, text};

#[test]
fn corners_of_the_table() {
    for bad in [&[0xC0, 0x80][..], &[0xED, 0xA0, 0x80], &[0xF4, 0x90, 0x80, 0x80], &[0x80], &[0xE2, 0x82]] {
        assert_eq!(check(bad).unwrap_err().number(), 8, "{bad:x?}");
        assert_eq!(text(bad).unwrap_err().to_string(), "refusal 8: not UTF-8");
    }
    assert_eq!(text(&[0xF4, 0x8F, 0xBF, 0xBF]), Ok("\u{10FFFF}"));
    assert_eq!(text(&[]), Ok(""));
    assert_eq!(text("Zażółć gęślą jaźń".as_bytes()), Ok("Zażółć gęślą jaźń"));
}
