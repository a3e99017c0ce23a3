//! Comparing: options, and the layers in turn.

use crate::LAYERS;
use crate::frame::{Comparison, Layer};

pub fn main(words: &[String]) -> Result<(), String> {
    let mut seed = 1;
    let mut scale = 1;
    let mut layers: Vec<&'static Layer> = Vec::new();
    let mut words = words.iter();
    while let Some(word) = words.next() {
        match word.as_str() {
            "--seed" => seed = number(words.next(), "--seed")?,
            "--scale" => scale = number(words.next(), "--scale")?,
            name => match LAYERS.iter().find(|layer| layer.name == name) {
                Some(layer) => layers.push(layer),
                None => return Err(format!("no layer {name}; there are {:?}", LAYERS.iter().map(|layer| layer.name).collect::<Vec<_>>())),
            },
        }
    }
    if layers.is_empty() {
        layers.extend(LAYERS);
    }
    println!("differential: seed {seed}, scale {scale}, originals in {}", oracle::FOLDER);
    let mut comparison = Comparison::new(seed, scale, &layers);
    for layer in &layers {
        (layer.compare)(&mut comparison);
    }
    if comparison.finish() { Ok(()) } else { Err("the two sides differ, or an answer was never reached".into()) }
}

fn number(word: Option<&String>, option: &str) -> Result<u64, String> {
    word.and_then(|word| word.parse().ok()).ok_or(format!("{option} takes a number"))
}
