//! Rounds, medians and spreads.

use std::hint::black_box;
use std::time::Instant;

/// Takes an answer as a caller does, in every case and on both sides: each of its words by itself. Of a sum of several words the compiler may load two at once, which
/// waits for both to be stored where the answer is an array in memory, and does not where it is in registers: such ratios could not be compared.
#[inline(always)]
pub fn look<const N: usize>(words: &[u64; N]) {
    for word in words {
        black_box(*word);
    }
}

pub struct Table {
    rounds: usize,
    names: Vec<String>,
}

impl Table {
    /// Prints the heading: machine and compiler, since a ratio is theirs. What follows is a table as documents have it.
    pub fn new(rounds: usize, names: Vec<String>) -> Table {
        let processors = std::fs::read_to_string("/proc/cpuinfo").unwrap_or_default();
        let model = processors.lines().find_map(|line| line.strip_prefix("model name")).unwrap_or(": a processor that gives no name");
        let model = model.trim_start_matches([' ', '\t', ':']);
        println!("bench: {model}, {}, {rounds} rounds of each side", env!("RUSTC_VERSION"));
        println!();
        println!("| {:<28} | {:>5} | {:>14} | {:>9} | {:>9} |", "case", "ratio", "10th to 90th", "ours, ns", "Rust, ns");
        println!("|:{:-<28}-|-{:->5}:|-{:->14}:|-{:->9}:|-{:->9}:|", "", "", "", "", "");
        Table { rounds, names }
    }

    /// Times one case: each side is one pass over the case's inputs, of `calls` calls. Prints the case's line.
    pub fn case(&mut self, name: &str, calls: usize, mut ours: impl FnMut(), mut rust: impl FnMut()) {
        if !self.names.is_empty() && !self.names.iter().any(|part| name.contains(part.as_str())) {
            return;
        }
        for _ in 0..10 {
            ours();
            rust();
        }
        let mut times = (Vec::new(), Vec::new());
        let mut ratios = Vec::new();
        for round in 0..self.rounds {
            // Neither side is always the first.
            let (a, b) = if round % 2 == 0 {
                let a = timed(&mut ours);
                (a, timed(&mut rust))
            } else {
                let b = timed(&mut rust);
                (timed(&mut ours), b)
            };
            times.0.push(a);
            times.1.push(b);
            ratios.push(a / b);
        }
        let (ours, rust) = (at(&mut times.0, 0.5), at(&mut times.1, 0.5));
        let spread = format!("{:.2} to {:.2}", at(&mut ratios, 0.1), at(&mut ratios, 0.9));
        let each = 1e9 / calls as f64;
        println!("| {name:<28} | {:>5.2} | {spread:>14} | {:>9.2} | {:>9.2} |", ours / rust, ours * each, rust * each);
    }
}

fn timed(pass: &mut impl FnMut()) -> f64 {
    let start = Instant::now();
    pass();
    start.elapsed().as_secs_f64()
}

/// The value below which this part of the values lies.
fn at(values: &mut [f64], part: f64) -> f64 {
    values.sort_by(f64::total_cmp);
    values[((values.len() - 1) as f64 * part).round() as usize]
}
