//! A reader and writer of section files in plain Rust, to measure the proved one by.
//!
//! `plain generate FOLDER` makes the sections, `plain measure FILE ROUNDS SAVED nodes|fragments` measures.

mod crc;
mod format;
mod generate;
mod looks;
mod measure;
mod numbers;
mod open;
mod save;

use open::Keep;
use std::env::args;
use std::error::Error;

fn main() -> Result<(), Box<dyn Error>> {
    let words: Vec<String> = args().skip(1).collect();
    let words: Vec<&str> = words.iter().map(String::as_str).collect();
    match words[..] {
        ["generate", folder] => {
            for shape in &generate::SHAPES {
                std::fs::write(
                    format!("{folder}/{}.one", shape.name),
                    generate::generate(shape),
                )?;
            }
            Ok(())
        }
        ["measure", file, rounds, saved, keep] => {
            let keep = if keep == "nodes" {
                Keep::Nodes
            } else {
                Keep::Fragments
            };
            measure::measure(file, rounds.parse()?, saved, keep)
        }
        _ => Err("plain generate FOLDER | plain measure FILE ROUNDS SAVED nodes|fragments".into()),
    }
}

#[cfg(test)]
mod tests {
    use crate::open::{open, Keep};

    fn listing(bytes: &[u8]) -> String {
        let line = |numbers: &[u64]| {
            numbers
                .iter()
                .map(|n| format!("{n:12}"))
                .collect::<String>()
                + "\n"
        };
        match open(bytes, Keep::Nodes) {
            Err(f) => line(&[f.number.into(), f.layer.into(), f.place, f.list.into()]),
            Ok(section) => {
                let (count, end) = (section.header.count.into(), section.header.end);
                let (lists, fragments) = (section.lists.len() as u64, section.fragments as u64);
                let first = line(&[count, end, lists, fragments, section.percent]);
                let rows = section.lists.iter().map(|list| {
                    line(&[list.id.into(), list.count.into(), list.pieces.len() as u64])
                });
                first + &rows.collect::<String>()
            }
        }
    }

    /// The sample files, accepted and refused, are listed as is expected of them.
    #[test]
    fn samples_are_listed_as_expected() {
        let folder = concat!(env!("CARGO_MANIFEST_DIR"), "/../../crates/cases/data");
        let mut number = 0;
        while let Ok(bytes) = std::fs::read(format!("{folder}/{number:03}.one")) {
            let expected = std::fs::read_to_string(format!("{folder}/{number:03}.txt")).unwrap();
            assert_eq!(listing(&bytes), expected, "sample {number:03}");
            number += 1;
        }
        assert_eq!(number, 68);
    }
}
