//! The header serves a C program: one that calls every function it declares is compiled without a warning, linked with the archive and run.

use std::env;
use std::fs;
use std::path::{Path, PathBuf};
use std::process::Command;

fn crate_file(name: &str) -> PathBuf {
    Path::new(env!("CARGO_MANIFEST_DIR")).join(name)
}

#[test]
fn a_c_program_calls_every_function() {
    let header = fs::read_to_string(crate_file("../../include/seremonek.h")).unwrap();
    let program = fs::read_to_string(crate_file("tests/every_call.c")).unwrap();
    let declared: Vec<&str> = header
        .split(|c: char| !c.is_ascii_alphanumeric() && c != '_' && c != '(')
        .filter_map(|word| word.split_once('(').map(|(name, _)| name))
        .filter(|name| name.starts_with("smk_"))
        .collect();
    assert!(declared.len() >= 8, "the header was read: {declared:?}");
    for name in declared {
        assert!(program.contains(&format!("{name}(")), "tests/every_call.c does not call {name}");
    }

    let built = Path::new(env!("CARGO_TARGET_TMPDIR")).join("every_call");
    let compiler = env::var("CC").unwrap_or_else(|_| "cc".into());
    let status = Command::new(&compiler)
        .args(["-std=c99", "-pedantic", "-Wall", "-Wextra", "-Werror", "-I"])
        .arg(crate_file("../../include"))
        .arg("-o")
        .arg(&built)
        .arg(crate_file("tests/every_call.c"))
        .arg(env!("SEREMONEK_ARCHIVE"))
        .status()
        .unwrap_or_else(|error| panic!("{compiler}: {error}"));
    assert!(status.success(), "{compiler} did not build the program");
    let ran = Command::new(&built).output().unwrap();
    assert!(ran.status.success(), "{}", String::from_utf8_lossy(&ran.stdout));
}
