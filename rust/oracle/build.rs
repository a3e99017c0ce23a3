//! Points the crate at the original files, which are not copied into this repository.
//!
//! ORACLE_SRC names the folder that holds `src/sql/pager/varint.rs` and the others: a checkout of the original repository, or a folder
//! of the same layout. A relative name counts from the repository's root. Where the files are not there the crate is built without them,
//! with the cfg `oracle_missing`.

use std::env;
use std::fs;
use std::path::{Path, PathBuf};

const DEFAULT: &str = "../shared/docs/src";

/// The modules of `src/sql/pager` that are included, in the order of what leans on what.
const MODULES: [&str; 7] = ["varint", "cell", "page", "allocator", "overflow", "interior_page", "table_page"];

/// What bench and the tests ask of private functions, added to a second copy of the module. The included module itself has no line added.
const VARINT_ACCESS: &str = "
pub fn open_zigzag_encode(v: i64) -> u64 {
    zigzag_encode(v)
}

pub fn open_zigzag_decode(v: u64) -> i64 {
    zigzag_decode(v)
}
";

fn main() {
    println!("cargo:rerun-if-env-changed=ORACLE_SRC");
    println!("cargo:rustc-check-cfg=cfg(oracle_missing)");
    let out = PathBuf::from(env::var("OUT_DIR").unwrap());
    let named = env::var("ORACLE_SRC").ok().filter(|name| !name.is_empty());
    let folder = repository_root().join(named.as_deref().unwrap_or(DEFAULT));
    let missing: Vec<String> = MODULES
        .iter()
        .map(|module| file_of(&folder, module))
        .inspect(|file| println!("cargo:rerun-if-changed={}", file.display()))
        .filter(|file| !file.is_file())
        .map(|file| file.display().to_string())
        .collect();
    if let Some(first) = missing.first() {
        println!("cargo:rustc-cfg=oracle_missing");
        println!("cargo:rustc-env=ORACLE_ABSENT={first} is not there (ORACLE_SRC names the folder of the originals)");
        println!("cargo:found=no");
        return;
    }
    let folder = folder.canonicalize().unwrap();
    let mut modules = String::new();
    for module in MODULES {
        modules += &format!("#[path = {:?}]\n#[allow(dead_code)]\npub mod {module};\n", file_of(&folder, module));
    }
    let varint = fs::read_to_string(file_of(&folder, "varint")).unwrap();
    fs::write(out.join("varint_open.rs"), varint + VARINT_ACCESS).unwrap();
    modules += &format!("#[path = {:?}]\n#[allow(dead_code)]\npub mod varint_open;\n", out.join("varint_open.rs"));
    fs::write(out.join("pager.rs"), modules).unwrap();
    println!("cargo:rustc-env=ORACLE_FOLDER={}", folder.display());
    println!("cargo:found=yes");
}

fn file_of(folder: &Path, module: &str) -> PathBuf {
    folder.join("src/sql/pager").join(format!("{module}.rs"))
}

/// The nearest folder above this crate that has a crates.txt.
fn repository_root() -> PathBuf {
    let here = PathBuf::from(env::var("CARGO_MANIFEST_DIR").unwrap());
    let root = here.ancestors().find(|folder| folder.join("crates.txt").is_file());
    root.expect("this crate stands in a repository with a crates.txt").to_path_buf()
}
