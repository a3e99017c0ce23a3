//! Both sides in one process, as ratios: the time of the proved call over the time of the original.
//!
//! ```text
//! bench [--rounds N] [WORD..]      all cases, or those whose name has one of the words
//! ```
//!
//! Both sides are release builds, the originals without overflow checks, as a service would run them. Each call goes through a function pointer that the
//! compiler cannot see through, so neither side is inlined into the loop around it, and each word of its answer is looked at by itself. A round runs one side over the
//! case's inputs and then the other, in turns; the table gives the ratio of the two medians, and between which values the middle eight tenths of the rounds' own ratios lie.
//! It is no test: it fails on nothing.
//!
//! A call of a few nanoseconds hangs on where the linker puts it, too: a loop that comes to lie across two lines of 64 bytes costs up to a third more, on either side.
//! `write_i64` of four bytes has had ratios from 0.6 to 1.1 in builds with the same instructions. Such a figure is to be taken from more than one build.

#[cfg(oracle_missing)]
fn main() {
    println!("bench: skipped: {}", oracle_plain::ABSENT);
}

#[cfg(not(oracle_missing))]
mod cell;
#[cfg(not(oracle_missing))]
mod numbers;
#[cfg(not(oracle_missing))]
mod references;
#[cfg(not(oracle_missing))]
mod timing;
#[cfg(not(oracle_missing))]
mod utf8;
#[cfg(not(oracle_missing))]
mod varint;

#[cfg(not(oracle_missing))]
fn main() {
    if cfg!(debug_assertions) {
        eprintln!("bench: build it with --release; these figures would say nothing");
        std::process::exit(1);
    }
    let mut rounds = 400;
    let mut names: Vec<String> = Vec::new();
    let mut words = std::env::args().skip(1);
    while let Some(word) = words.next() {
        match word.as_str() {
            "--rounds" => rounds = words.next().and_then(|n| n.parse().ok()).expect("--rounds takes a number"),
            _ => names.push(word),
        }
    }
    let mut table = timing::Table::new(rounds, names);
    varint::cases(&mut table);
    utf8::cases(&mut table);
    cell::cases(&mut table);
    references::cases(&mut table);
}
