//! The C interface is written three times: in the proved crate that exports it, in the header for C, and in the declarations for Rust. Nothing else
//! compares the three, and a linker looks at names alone. Here each is read into the same form, the proved crate's own, and any difference in a name, a parameter or a
//! type fails.

use std::collections::BTreeMap;
use std::fs;
use std::path::{Path, PathBuf};

/// Functions by name, each as `(name: type, ..) -> type` in the words of the proved crate.
type Functions = BTreeMap<String, String>;

fn root(name: &str) -> PathBuf {
    Path::new(env!("CARGO_MANIFEST_DIR")).join("../..").join(name)
}

fn read(path: &Path) -> String {
    fs::read_to_string(path).unwrap_or_else(|error| panic!("{}: {error}", path.display()))
}

/// The text without `//` and `/* */` comments, white space as single spaces.
fn plain(text: &str) -> String {
    let mut rest = text;
    let mut out = String::new();
    while let Some(at) = rest.find("/*") {
        out += &rest[..at];
        rest = rest[at..].split_once("*/").expect("a comment that ends").1;
    }
    out += rest;
    let lines: Vec<&str> = out.lines().map(|line| line.split("//").next().unwrap()).collect();
    lines.join(" ").split_whitespace().collect::<Vec<_>>().join(" ")
}

/// What stands between the parenthesis that opens at the start of `text` and the one that closes it, and what follows.
fn parenthesised(text: &str) -> (&str, &str) {
    let close = text.find(')').expect("a parenthesis that closes");
    (&text[1..close], &text[close + 1..])
}

/// A list of parameters, parted at its commas: no type of the interface has one inside.
fn parameters(list: &str) -> Vec<String> {
    list.split(',').map(str::trim).filter(|part| !part.is_empty()).map(str::to_string).collect()
}

fn signature(parameters: &[(String, String)], result: &str) -> String {
    let list: Vec<String> = parameters.iter().map(|(name, kind)| format!("{name}: {kind}")).collect();
    format!("({}) -> {result}", list.join(", "))
}

/// A pointer and the length that follows it are one slice. The length is to be called as the slice is, with `_len`.
fn slices(parameters: Vec<(String, String)>, file: &str) -> Vec<(String, String)> {
    let mut joined: Vec<(String, String)> = Vec::new();
    let mut pointer: Option<(String, String)> = None;
    for (name, kind) in parameters {
        match pointer.take() {
            Some((slice, slice_kind)) => {
                assert_eq!((name, kind.as_str()), (format!("{slice}_len"), "usize"), "{file}: {slice} is not followed by its length");
                joined.push((slice, slice_kind));
            }
            None if kind == "&[u8]" || kind == "&mut [u8]" => pointer = Some((name, kind)),
            None => joined.push((name, kind)),
        }
    }
    assert!(pointer.is_none(), "{file}: a pointer with no length");
    joined
}

/// `#[unsafe(no_mangle)] pub extern "C" fn` of the proved crate: already in the form.
fn exported(text: &str) -> Functions {
    let text = plain(text);
    let mut functions = Functions::new();
    let mut rest = text.as_str();
    while let Some(at) = rest.find("#[unsafe(no_mangle)]") {
        rest = rest[at + "#[unsafe(no_mangle)]".len()..].trim_start();
        rest = rest.strip_prefix("pub extern \"C\" fn ").expect("what is #[unsafe(no_mangle)] is a pub extern \"C\" fn");
        let open = rest.find('(').unwrap();
        let name = rest[..open].to_string();
        let (list, after) = parenthesised(&rest[open..]);
        let list: Vec<(String, String)> = parameters(list)
            .iter()
            .map(|part| part.split_once(": ").map(|(name, kind)| (name.to_string(), kind.to_string())).expect("name: type"))
            .collect();
        let result = after.trim_start().strip_prefix("-> ").expect("a result").split([' ', '{']).next().unwrap();
        let known = functions.insert(name.clone(), signature(&list, result));
        assert!(known.is_none(), "{name} is exported twice");
        rest = after;
    }
    functions
}

/// The header's declarations.
fn declared_in_c(text: &str) -> Functions {
    let lines: Vec<&str> = text.lines().filter(|line| !line.starts_with('#')).collect();
    let text = plain(&lines.join("\n"));
    let mut functions = Functions::new();
    for declaration in text.split(';').filter(|part| part.contains('(')) {
        // An `extern "C" {` before the first declaration is not part of it.
        let declaration = declaration.rsplit('{').next().unwrap().trim();
        let open = declaration.find('(').unwrap();
        let (result, name) = declaration[..open].rsplit_once(' ').expect("a result and a name");
        let (list, after) = parenthesised(&declaration[open..]);
        assert!(after.trim().is_empty(), "after the declaration of {name}: {after}");
        let list = parameters(list).iter().map(|part| c_parameter(part)).collect();
        functions.insert(name.to_string(), signature(&slices(list, "the header"), c_number(result)));
    }
    functions
}

fn c_parameter(part: &str) -> (String, String) {
    if let Some((kind, name)) = part.rsplit_once('*') {
        let kind = match kind.trim() {
            "const uint8_t" => "&[u8]",
            "uint8_t" => "&mut [u8]",
            other => panic!("the header has a pointer to {other}"),
        };
        return (name.trim().to_string(), kind.to_string());
    }
    let (kind, name) = part.rsplit_once(' ').expect("type and name");
    match name.strip_suffix(']').and_then(|name| name.split_once('[')) {
        Some((name, length)) => (name.to_string(), format!("&mut [{}; {length}]", c_number(kind))),
        None => (name.to_string(), c_number(kind).to_string()),
    }
}

fn c_number(kind: &str) -> &str {
    match kind {
        "uint8_t" => "u8",
        "uint32_t" => "u32",
        "uint64_t" => "u64",
        "int64_t" => "i64",
        "size_t" => "usize",
        other => panic!("the header has the type {other}"),
    }
}

/// The declarations of src/ffi.rs.
fn declared_in_rust(text: &str) -> Functions {
    let text = plain(text);
    let block = text.split_once("unsafe extern \"C\" {").expect("one block of declarations").1;
    let (block, after) = block.split_once('}').expect("the block ends");
    assert!(after.trim().is_empty(), "after the block of declarations: {after}");
    let mut functions = Functions::new();
    // A semicolon inside an array type is followed by a space and a number; one that ends a declaration is not.
    for declaration in block.split(" pub fn ").map(str::trim).filter(|part| !part.is_empty()) {
        let declaration = declaration.strip_suffix(';').expect("a declaration ends in a semicolon");
        let open = declaration.find('(').unwrap();
        let (list, after) = parenthesised(&declaration[open..]);
        let result = after.trim().strip_prefix("-> ").expect("a result");
        let list = parameters(list).iter().map(|part| rust_parameter(part)).collect();
        functions.insert(declaration[..open].to_string(), signature(&slices(list, "ffi.rs"), result));
    }
    functions
}

fn rust_parameter(part: &str) -> (String, String) {
    let (name, kind) = part.split_once(": ").expect("name: type");
    let kind = match kind {
        "*const u8" => "&[u8]".to_string(),
        "*mut u8" => "&mut [u8]".to_string(),
        array if array.starts_with("*mut [") => array.replacen("*mut ", "&mut ", 1),
        number => number.to_string(),
    };
    (name.to_string(), kind)
}

fn compare(left: &str, lefts: &Functions, right: &str, rights: &Functions) {
    for (name, form) in lefts {
        match rights.get(name) {
            None => panic!("{left} has {name}, and {right} has not"),
            Some(other) => assert_eq!(form, other, "{name}: {left} (left) and {right} (right) disagree"),
        }
    }
    for name in rights.keys() {
        assert!(lefts.contains_key(name), "{right} has {name}, and {left} has not");
    }
}

#[test]
fn header_declarations_and_exported_functions_agree() {
    let mut proved = Functions::new();
    let folder = root("crates/seremonek_c/src");
    let files = fs::read_dir(&folder).unwrap_or_else(|error| panic!("{}: {error}", folder.display()));
    for file in files.map(|file| file.unwrap().path()).filter(|path| path.extension().is_some_and(|end| end == "rt")) {
        proved.extend(exported(&read(&file)));
    }
    assert!(proved.len() >= 8, "the proved crate was read: {proved:?}");
    let header = declared_in_c(&read(&root("include/seremonek.h")));
    let rust = declared_in_rust(&read(&root("rust/seremonek/src/ffi.rs")));
    compare("crates/seremonek_c", &proved, "include/seremonek.h", &header);
    compare("crates/seremonek_c", &proved, "rust/seremonek/src/ffi.rs", &rust);
}

/// The three readers see what they are to see: the same function in three spellings is one form, and each kind of slip changes it.
#[test]
fn slips_are_seen() {
    let rattle = "#[unsafe(no_mangle)]\npub extern \"C\" fn smk_x(buf: &[u8], pos: usize, answer: &mut [u64; 2]) -> u32\n    ensures { result ≡ 0 }\n{ 0 }";
    let header =
        "#include <x>\nextern \"C\" {\n/* x */\nuint32_t smk_x(const uint8_t *buf, size_t buf_len, size_t pos, uint64_t answer[2]);\n}";
    let rust =
        "//! x\nunsafe extern \"C\" {\n    pub fn smk_x(buf: *const u8, buf_len: usize, pos: usize, answer: *mut [u64; 2]) -> u32;\n}";
    let form = exported(rattle);
    assert_eq!(form["smk_x"], "(buf: &[u8], pos: usize, answer: &mut [u64; 2]) -> u32");
    assert_eq!(declared_in_c(header), form);
    assert_eq!(declared_in_rust(rust), form);
    for (from, to) in [
        ("smk_x", "smk_y"),
        ("const uint8_t", "uint8_t"),
        (" pos", " at"),
        ("size_t pos", "uint32_t pos"),
        ("[2]", "[3]"),
        ("uint32_t s", "uint64_t s"),
    ] {
        assert!(header.contains(from));
        assert_ne!(declared_in_c(&header.replacen(from, to, 1)), form, "{from} to {to}");
    }
    for (from, to) in
        [("smk_x", "smk_y"), ("*const", "*mut"), (" pos", " at"), ("pos: usize", "pos: u32"), ("; 2]", "; 3]"), ("-> u32", "-> u64")]
    {
        assert!(rust.contains(from));
        assert_ne!(declared_in_rust(&rust.replacen(from, to, 1)), form, "{from} to {to}");
    }
}
