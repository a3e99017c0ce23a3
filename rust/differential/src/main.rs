//! The proved calls against the originals, call by call.
//!
//! ```text
//! differential [--seed N] [--scale N] [LAYER..]     compare; scale 1 takes a minute, a larger one tries more, and one from 100 on takes hours
//! differential record FOLDER                        write the originals' answers on a fixed sample: FOLDER/data/LAYER.txt and FOLDER/stdout
//! ```
//!
//! Each layer is one module with a [`frame::Layer`]: its calls, what to try on them, and what to record. A new layer adds its module and a line of `LAYERS`.

#[cfg(oracle_missing)]
fn main() {
    if std::env::args().nth(1).as_deref() == Some("record") {
        eprintln!("differential: nothing to record from: {}", oracle::ABSENT);
        std::process::exit(1);
    }
    println!("differential: skipped: {}", oracle::ABSENT);
}

#[cfg(not(oracle_missing))]
mod cell;
#[cfg(not(oracle_missing))]
mod entries;
#[cfg(not(oracle_missing))]
mod frame;
#[cfg(not(oracle_missing))]
mod inputs;
#[cfg(not(oracle_missing))]
mod random;
#[cfg(not(oracle_missing))]
mod record;
#[cfg(not(oracle_missing))]
mod references;
#[cfg(not(oracle_missing))]
mod run;
#[cfg(not(oracle_missing))]
mod utf8;
#[cfg(not(oracle_missing))]
mod varint;

/// Lowest first.
#[cfg(not(oracle_missing))]
const LAYERS: &[frame::Layer] = &[varint::LAYER, utf8::LAYER, cell::LAYER, references::LAYER];

#[cfg(not(oracle_missing))]
fn main() {
    let words: Vec<String> = std::env::args().skip(1).collect();
    let ended = match words.first().map(String::as_str) {
        Some("record") => record::main(&words[1..]),
        _ => run::main(&words),
    };
    if let Err(complaint) = ended {
        eprintln!("differential: {complaint}");
        std::process::exit(1);
    }
}
