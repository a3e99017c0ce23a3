//! Finds libseremonek.a: in the folder named by SEREMONEK_LIB_DIR, or where `make -C rust archive` puts it.

use std::env;
use std::path::PathBuf;

fn main() {
    println!("cargo:rerun-if-env-changed=SEREMONEK_LIB_DIR");
    let here = PathBuf::from(env::var("CARGO_MANIFEST_DIR").unwrap());
    let folder = match env::var("SEREMONEK_LIB_DIR") {
        Ok(named) => PathBuf::from(named),
        Err(_) => here.join("../../target/staticlib"),
    };
    let archive = folder.join("libseremonek.a");
    println!("cargo:rerun-if-changed={}", archive.display());
    if !archive.is_file() {
        panic!(
            "{} is not there: run `make -C rust archive` at the repository's root, or name its folder in SEREMONEK_LIB_DIR",
            archive.display()
        );
    }
    println!("cargo:rustc-link-search=native={}", folder.display());
    println!("cargo:rustc-link-lib=static=seremonek");
    // For the test that links a C program against the same archive.
    println!("cargo:rustc-env=SEREMONEK_ARCHIVE={}", archive.display());
}
