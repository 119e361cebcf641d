//! Writes drawings with the answers of the unchanged Rust, in the form that the replay program reads:
//!
//!     stored SEED COUNT > ../crates/replay/stdin    the drawings of kept.txt, some long ones, and so many random ones
//!
//! A line is `R,left,top,right,bottom`, the rectangle of what follows; or `C` or `L` with x,y pairs, a drawing as the clip
//! program reads it; or, behind a drawing and marked by `=`, a line that the clip program prints for it (W = A = 256) where
//! the drawing's line number is that of the stored file; or a comment, marked by `#`.

use compare::drawings::{random_drawing, read_all, Drawing};
use compare::judge::{Kind, Rect, FIRMWARE, MAX_SHORT_PATH};
use compare::program::print_answer;
use compare::random::Random;
use std::env;
use std::io::{self, BufWriter, Write};

const USAGE: &str = "usage: stored SEED COUNT";
const KEPT: &str = include_str!("../../kept.txt");

/// Points at most, each as often as it stands here.
const SIZES: [usize; 10] = [3, 4, 5, 6, 8, 12, 12, 24, 60, 128];

fn main() -> Result<(), String> {
    let words: Vec<String> = env::args().skip(1).collect();
    let [seed, count] = &words[..] else { return Err(USAGE.to_string()) };
    let (seed, count) = (number(seed)?, number(count)?);
    let mut file = Stored { output: BufWriter::new(io::stdout().lock()), line: 0, rect: None };
    let mut drawings = read_all(KEPT)?.into_iter().chain(repeated()).chain(random_ones(seed, count));
    let written = file.heading(seed, count).and_then(|()| drawings.try_for_each(|d| file.drawing(&d)));
    written.and_then(|()| file.output.flush()).map_err(|e| e.to_string())
}

fn number(word: &str) -> Result<u64, String> {
    word.parse().map_err(|e| format!("{word}: {e}; {USAGE}"))
}

/// Three points gone over again and again: more and more walked points, up to refusal 8, and more and more turns, up to 10.
fn repeated() -> impl Iterator<Item = Drawing> {
    let three = [[-40, 109, 109, -40, 100, 80], [20, 30, -40, 109, 20, 100]];
    three.into_iter().flat_map(|points| {
        (1..=MAX_SHORT_PATH / 3).map(move |times| Drawing {
            kind: Kind::Closed,
            rect: [0, 0, 100, 100],
            path: points.repeat(times),
            w: FIRMWARE,
            a: FIRMWARE,
        })
    })
}

/// As many closed drawings as open ones. Now and then one goes over its points again and again.
fn random_ones(seed: u64, count: u64) -> impl Iterator<Item = Drawing> {
    let mut random = Random::new(seed);
    (0..count).map(move |i| {
        let most = random.pick(&SIZES);
        let mut drawing = random_drawing(&mut random, most);
        drawing.kind = if i % 2 == 0 { Kind::Closed } else { Kind::Open };
        if random.one_in(16) {
            drawing.path = drawing.path.repeat(2 * MAX_SHORT_PATH / drawing.path.len().max(1));
        }
        drawing
    })
}

/// The file, how many lines it has, and the rectangle that was last set.
struct Stored<W: Write> {
    output: W,
    line: u64,
    rect: Option<Rect>,
}

impl<W: Write> Stored<W> {
    fn heading(&mut self, seed: u64, count: u64) -> io::Result<()> {
        self.line(
            "# Drawings with the answers of the unchanged Rust; the form is described in compare/src/bin/stored.rs.",
        )?;
        self.line(&format!(
            "# Made in compare/ by: cargo run --offline --bin stored {seed} {count} > ../crates/replay/stdin"
        ))
    }

    fn line(&mut self, text: &str) -> io::Result<()> {
        self.line += 1;
        writeln!(self.output, "{text}")
    }

    /// The drawing, under its rectangle, and the answer.
    fn drawing(&mut self, drawing: &Drawing) -> io::Result<()> {
        if self.rect != Some(drawing.rect) {
            self.rect = Some(drawing.rect);
            self.line(&fields('R', &drawing.rect))?;
        }
        let asked = fields(drawing.letter(), &drawing.path);
        self.line(&asked)?;
        let mut answer = Vec::new();
        print_answer(&mut answer, drawing.rect, self.line, asked.as_bytes())?;
        String::from_utf8_lossy(&answer).lines().try_for_each(|line| self.line(&format!("={line}")))
    }
}

/// A letter and numbers, parted by commas.
fn fields(letter: char, numbers: &[i64]) -> String {
    let numbers: String = numbers.iter().map(|n| format!(",{n}")).collect();
    format!("{letter}{numbers}")
}
