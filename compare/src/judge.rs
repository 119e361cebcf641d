//! Document 01's answer for one path, from the Rust at hand.
//!
//! `run` is what the Rust does with a path, whatever lists are lent; `clip` adds the refusals.

use crate::core::{get_bounds_path, Path64, Paths64, Point64, Rect64};
use crate::{counted, rectclip, tally};
use std::panic::{catch_unwind, resume_unwind};

/// The coordinate limit, either way.
pub const MAX_COORDINATE: i64 = 33_554_432;
/// The longest path of a call, in points.
pub const MAX_PATH: usize = 4_096;
/// The longest path of the exported entries and of the program, in points.
pub const MAX_SHORT_PATH: usize = 128;
/// The largest W.
pub const MAX_POINTS: usize = 65_536;
/// The largest A.
pub const MAX_TURNS: usize = 65_535;
/// W and A of the exported entries and of the program.
pub const FIRMWARE: usize = 256;

/// Which clipper.
#[derive(Clone, Copy, Debug, PartialEq, Eq)]
pub enum Kind {
    Closed,
    Open,
}

/// left, top, right, bottom
pub type Rect = [i64; 4];

/// What the caller lends: W, A, and the lengths of the other lists, in numbers.
#[derive(Clone, Copy, Debug, PartialEq, Eq)]
pub struct Lent {
    pub w: usize,
    /// Not looked at for lines, which have A = 0.
    pub a: usize,
    pub work: usize,
    pub coordinates: usize,
    pub lengths: usize,
}

impl Lent {
    /// W and A, with lists that are long enough for every result.
    pub fn enough(w: usize, a: usize) -> Self {
        Lent { w, a, work: usize::MAX, coordinates: usize::MAX, lengths: usize::MAX }
    }
}

/// The length that the work list needs.
pub fn work_needed(w: usize, a: usize) -> usize {
    16 * (w + a + 1)
}

/// A result: what the leading entries of both lists hold, and the turns.
#[derive(Clone, Debug, Default, PartialEq, Eq)]
pub struct Drawn {
    pub coordinates: Vec<i64>,
    pub lengths: Vec<u32>,
    pub turns: u32,
}

impl Drawn {
    pub fn paths(&self) -> usize {
        self.lengths.len()
    }

    pub fn points(&self) -> usize {
        self.coordinates.len() / 2
    }

    /// The coordinates of each returned path.
    pub fn each_path(&self) -> impl Iterator<Item = &[i64]> {
        let mut rest = self.coordinates.as_slice();
        self.lengths.iter().map(move |&points| {
            let (path, after) = rest.split_at(2 * points as usize);
            rest = after;
            path
        })
    }
}

#[derive(Clone, Debug, PartialEq, Eq)]
pub enum Answer {
    Refused(u32),
    Drawn(Drawn),
}

/// What the Rust does with one path.
#[derive(Clone, Debug, Default, PartialEq, Eq)]
pub struct Run {
    /// The coordinates of each returned path.
    pub paths: Vec<Vec<i64>>,
    /// Whether the path was walked, and not copied or passed over.
    pub walked: bool,
    /// The coordinates of the points that `add` stored, in order.
    pub stored: Vec<i64>,
    /// Start sides that the walk pushed.
    pub start_sides: usize,
    /// Whether a second search of a passing segment found nothing.
    pub missed: bool,
    /// Tidy turns over all four edges.
    pub turns: u64,
}

impl Run {
    /// Points that `add` stored.
    pub fn points(&self) -> usize {
        self.stored.len() / 2
    }

    /// The walked outline of a closed path that is walked.
    pub fn outline(self) -> Option<Vec<i64>> {
        self.walked.then_some(self.stored)
    }

    /// The least W that the walk is content with.
    pub fn least_w(&self) -> usize {
        self.points().max(self.start_sides)
    }

    /// Refusal 8 of a walk with W.
    fn walk_refusal(&self, w: usize) -> Option<u32> {
        (self.least_w() > w).then_some(8)
    }

    /// The returned paths as the lent lists hold them.
    fn drawn(&self) -> Drawn {
        Drawn {
            coordinates: self.paths.concat(),
            lengths: self.paths.iter().map(|p| (p.len() / 2) as u32).collect(),
            turns: self.turns as u32,
        }
    }
}

/// The answer of a call: a refusal, or the result.
pub fn clip(kind: Kind, rect: Rect, path: &[i64], lent: Lent) -> Answer {
    match early_refusal(kind, rect, path, lent) {
        Some(number) => Answer::Refused(number),
        None => late_answer(&run(kind, rect, path), lent),
    }
}

/// Refusals 1 to 7.
pub fn early_refusal(kind: Kind, rect: Rect, path: &[i64], lent: Lent) -> Option<u32> {
    let a = if kind == Kind::Closed { lent.a } else { 0 };
    list_refusal(path, lent.w, a, lent.work).or_else(|| sheet_refusal(MAX_PATH, rect, path))
}

/// Refusals 1 to 4.
fn list_refusal(path: &[i64], w: usize, a: usize, work: usize) -> Option<u32> {
    if path.len() % 2 == 1 {
        Some(1)
    } else if w > MAX_POINTS {
        Some(2)
    } else if a > MAX_TURNS {
        Some(3)
    } else if work < work_needed(w, a) {
        Some(4)
    } else {
        None
    }
}

/// Refusals 5 to 7, for paths of at most `most` points.
fn sheet_refusal(most: usize, rect: Rect, path: &[i64]) -> Option<u32> {
    if path.len() / 2 > most {
        Some(5)
    } else if !in_limit(&rect) {
        Some(6)
    } else if !in_limit(path) {
        Some(7)
    } else {
        None
    }
}

/// Whether every number is within the coordinate limit.
pub fn in_limit(numbers: &[i64]) -> bool {
    numbers.iter().all(|n| (-MAX_COORDINATE..=MAX_COORDINATE).contains(n))
}

/// Refusals 8, 10 and 11, or the result, of a path that 1 to 7 let through. Lines have no turns, so A is not looked at for them.
pub fn late_answer(run: &Run, lent: Lent) -> Answer {
    if let Some(number) = run.walk_refusal(lent.w) {
        return Answer::Refused(number);
    }
    if run.turns > lent.a as u64 {
        return Answer::Refused(10);
    }
    let drawn = run.drawn();
    if lent.coordinates < drawn.coordinates.len() || lent.lengths < drawn.lengths.len() {
        return Answer::Refused(11);
    }
    Answer::Drawn(drawn)
}

/// *Present*, or the number of its refusal: 1, 5, 6 or 7.
pub fn present(rect: Rect, path: &[i64]) -> Result<bool, u32> {
    if path.len() % 2 == 1 {
        return Err(1);
    }
    match sheet_refusal(MAX_PATH, rect, path) {
        Some(number) => Err(number),
        None => {
            let rect = rect_of(rect);
            Ok(!rect.is_empty() && rect.intersects(&get_bounds_path(&path_of(path))))
        }
    }
}

/// The answer of an exported entry: the path comes as bytes, and the lent byte lists have these lengths.
pub fn exported(kind: Kind, rect: Rect, bytes: &[u8], coordinates: usize, lengths: usize, counts: usize) -> Answer {
    if !bytes.len().is_multiple_of(8) {
        return Answer::Refused(1);
    }
    let path = signed_words(bytes);
    if let Some(number) = sheet_refusal(MAX_SHORT_PATH, rect, &path) {
        return Answer::Refused(number);
    }
    let lent = Lent { coordinates: coordinates / 4, lengths: lengths / 4, ..Lent::enough(FIRMWARE, FIRMWARE) };
    match clip(kind, rect, &path, lent) {
        Answer::Drawn(_) if counts < 12 => Answer::Refused(11),
        answer => answer,
    }
}

/// The signed numbers of four bytes each, the lowest first.
pub fn signed_words(bytes: &[u8]) -> Vec<i64> {
    bytes.chunks_exact(4).map(|b| i32::from_le_bytes(b.try_into().unwrap()).into()).collect()
}

/// What the Rust does with one path within the limits. Stops with the input if the two copies differ, or one fails.
pub fn run(kind: Kind, rect: Rect, path: &[i64]) -> Run {
    assert!(
        path.len().is_multiple_of(2) && in_limit(&rect) && in_limit(path),
        "the Rust is called within the limits only"
    );
    catch_unwind(|| both_copies(kind, rect, path)).unwrap_or_else(|cause| {
        eprintln!("on {kind:?}, rectangle {rect:?}, path {path:?}");
        resume_unwind(cause)
    })
}

/// The counted copy first, since it ends a loop that runs away.
fn both_copies(kind: Kind, rect: Rect, path: &[i64]) -> Run {
    let paths = vec![path_of(path)];
    tally::take();
    let counted = match kind {
        Kind::Closed => counted::RectClip64::new(rect_of(rect)).execute(&paths),
        Kind::Open => counted::RectClipLines64::new(rect_of(rect)).execute(&paths),
    };
    let tally = tally::take();
    let unchanged = unchanged_copy(kind, rect, &paths);
    assert!(counted == unchanged, "the counted copy answers {counted:?}, the unchanged one {unchanged:?}");
    Run {
        paths: unchanged.iter().map(|p| coordinates_of(p)).collect(),
        walked: tally.walked,
        stored: coordinates_of(&tally.points),
        start_sides: tally.start_sides,
        missed: tally.missed,
        turns: tally.turns,
    }
}

/// The Rust itself.
fn unchanged_copy(kind: Kind, rect: Rect, paths: &Paths64) -> Paths64 {
    match kind {
        Kind::Closed => rectclip::RectClip64::new(rect_of(rect)).execute(paths),
        Kind::Open => rectclip::RectClipLines64::new(rect_of(rect)).execute(paths),
    }
}

/// The signed area of a ring of points, doubled.
pub fn doubled_area(coordinates: &[i64]) -> i128 {
    let n = coordinates.len() / 2;
    let point = |i: usize| (i128::from(coordinates[2 * (i % n)]), i128::from(coordinates[2 * (i % n) + 1]));
    (0..n)
        .map(|i| {
            let ((x, y), (next_x, next_y)) = (point(i), point(i + 1));
            x * next_y - next_x * y
        })
        .sum()
}

pub fn rect_of([left, top, right, bottom]: Rect) -> Rect64 {
    Rect64::new(left, top, right, bottom)
}

pub fn path_of(coordinates: &[i64]) -> Path64 {
    coordinates.chunks_exact(2).map(|c| Point64::new(c[0], c[1])).collect()
}

pub fn coordinates_of(path: &[Point64]) -> Vec<i64> {
    path.iter().flat_map(|p| [p.x, p.y]).collect()
}

#[cfg(test)]
mod tests {
    use super::*;

    fn walk(points: usize, start_sides: usize) -> Run {
        Run { stored: vec![0; 2 * points], start_sides, ..Run::default() }
    }

    #[test]
    fn eight_counts_points_and_start_sides() {
        assert_eq!(walk(5, 5).walk_refusal(5), None);
        assert_eq!(walk(6, 0).walk_refusal(5), Some(8));
        assert_eq!(walk(0, 6).walk_refusal(5), Some(8));
    }

    #[test]
    fn the_second_search_is_told() {
        tally::take();
        tally::second_search(true);
        assert!(!tally::take().missed);
        tally::second_search(false);
        tally::second_search(true);
        assert!(tally::take().missed);
        assert!(!tally::take().missed);
    }

    #[test]
    fn area_of_a_square_either_way() {
        assert_eq!(doubled_area(&[0, 0, 2, 0, 2, 2, 0, 2]), 8);
        assert_eq!(doubled_area(&[0, 2, 2, 2, 2, 0, 0, 0]), -8);
        assert_eq!(doubled_area(&[]), 0);
    }
}
