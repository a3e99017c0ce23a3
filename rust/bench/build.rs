//! Passes on whether the originals were found: without them there is nothing to time against, and main says so. And the compiler's version, which a ratio goes with.

use std::env;
use std::process::Command;

fn main() {
    println!("cargo:rerun-if-changed=build.rs");
    println!("cargo:rustc-check-cfg=cfg(oracle_missing)");
    if env::var("DEP_ORACLE_PLAIN_FOUND").as_deref() != Ok("yes") {
        println!("cargo:rustc-cfg=oracle_missing");
    }
    let compiler = env::var("RUSTC").unwrap();
    let said = Command::new(&compiler).arg("--version").output().unwrap_or_else(|error| panic!("{compiler}: {error}"));
    println!("cargo:rustc-env=RUSTC_VERSION={}", String::from_utf8_lossy(&said.stdout).trim());
}
