//! Prints drawings with the Rust's answer, one row a line (the form is described in src/drawings.rs).
//!
//!     drawings SEED COUNT [POINTS]   random drawings, of about POINTS points at most (12 unless given)
//!     drawings --file FILE           the drawings of a file

use compare::drawings::{random_drawing, read_all, Drawing};
use compare::random::Random;
use std::io::{self, BufWriter, Write};
use std::{env, fs};

const USAGE: &str = "usage: drawings SEED COUNT [POINTS], or drawings --file FILE";

fn main() -> Result<(), String> {
    let words: Vec<String> = env::args().skip(1).collect();
    let words: Vec<&str> = words.iter().map(String::as_str).collect();
    let printed = match words[..] {
        ["--file", file] => print_rows(kept(file)?.into_iter()),
        [seed, count] => print_rows(random_ones(number(seed)?, number(count)?, 12)),
        [seed, count, points] => print_rows(random_ones(number(seed)?, number(count)?, number(points)?)),
        _ => return Err(USAGE.to_string()),
    };
    printed.map_err(|e| e.to_string())
}

fn number(word: &str) -> Result<u64, String> {
    word.parse().map_err(|e| format!("{word}: {e}; {USAGE}"))
}

fn kept(file: &str) -> Result<Vec<Drawing>, String> {
    let text = fs::read_to_string(file).map_err(|e| format!("{file}: {e}"))?;
    read_all(&text)
}

fn random_ones(seed: u64, count: u64, points: u64) -> impl Iterator<Item = Drawing> {
    let mut random = Random::new(seed);
    (0..count).map(move |_| random_drawing(&mut random, points as usize))
}

fn print_rows(drawings: impl Iterator<Item = Drawing>) -> io::Result<()> {
    let mut output = BufWriter::new(io::stdout().lock());
    for drawing in drawings {
        writeln!(output, "{}", drawing.row())?;
    }
    output.flush()
}
