//! Drawings to compare on: families of random ones, and rows that hold a drawing with the Rust's answer.
//!
//! A row is one line of fields parted by semicolons; numbers within a field are parted by commas:
//!
//! ```text
//! kind;rectangle;W;A;path;answer;paths;outline
//! C;0,0,4,4;256;256;2,2,6,2,6,3,2,3;T,0;2,3,2,2,4,2,4,3;2,2,4,2,4,3,2,3
//! ```
//!
//! - kind: C closed, L open
//! - rectangle: left, top, right, bottom
//! - path: x, y, x, y and so on; empty where there are no points
//! - answer: X and the refusal, or T and the turns; work, coordinate and length lists are long enough
//! - paths: the returned paths, parted by bars; empty where there are none
//! - outline: the walked outline, whatever W and A are, of a closed path that 1 to 7 let through and that is walked;
//!   otherwise a minus
//!
//! A drawing is read from the first five fields, so a printed row may be kept in a file and read again.

use crate::judge::{clip, run, Answer, Kind, Lent, Rect, MAX_COORDINATE};
use crate::random::Random;

/// What a call is given, except the lengths of the lists to fill.
#[derive(Clone, Debug, PartialEq, Eq)]
pub struct Drawing {
    pub kind: Kind,
    pub rect: Rect,
    pub path: Vec<i64>,
    pub w: usize,
    pub a: usize,
}

impl Drawing {
    /// The Rust's answer, with lists that are long enough.
    pub fn answer(&self) -> Answer {
        clip(self.kind, self.rect, &self.path, Lent::enough(self.w, self.a))
    }

    /// C closed, L open.
    pub fn letter(&self) -> char {
        match self.kind {
            Kind::Closed => 'C',
            Kind::Open => 'L',
        }
    }

    /// The row with the Rust's answer.
    pub fn row(&self) -> String {
        let letter = self.letter();
        let given = format!("{letter};{};{};{};{}", commas(&self.rect), self.w, self.a, commas(&self.path));
        match self.answer() {
            Answer::Refused(number @ 1..=7) => format!("{given};X,{number};;-"),
            Answer::Refused(number) => format!("{given};X,{number};;{}", self.outline()),
            Answer::Drawn(drawn) => {
                let paths: Vec<String> = drawn.each_path().map(commas).collect();
                format!("{given};T,{};{};{}", drawn.turns, paths.join("|"), self.outline())
            }
        }
    }

    /// The field of the outline, for a path within the limits; it does not depend on W and A.
    fn outline(&self) -> String {
        let outline = match self.kind {
            Kind::Closed => run(self.kind, self.rect, &self.path).outline(),
            Kind::Open => None,
        };
        outline.map_or("-".to_string(), |points| commas(&points))
    }

    /// Reads the first five fields of a row.
    pub fn read(row: &str) -> Result<Drawing, String> {
        let fields: Vec<&str> = row.split(';').collect();
        let [kind, rect, w, a, path, ..] = fields[..] else {
            return Err(format!("fewer than five fields: {row}"));
        };
        let kind = match kind {
            "C" => Kind::Closed,
            "L" => Kind::Open,
            _ => return Err(format!("kind {kind} is neither C nor L")),
        };
        let rect = numbers(rect)?.try_into().map_err(|_| format!("rectangle {rect} has not four numbers"))?;
        let count = |field: &str| field.parse().map_err(|e| format!("{field}: {e}"));
        Ok(Drawing { kind, rect, path: numbers(path)?, w: count(w)?, a: count(a)? })
    }
}

/// The drawings of a file: one row a line; empty lines and lines that begin with # are passed over.
pub fn read_all(text: &str) -> Result<Vec<Drawing>, String> {
    let rows = text.lines().filter(|line| !line.is_empty() && !line.starts_with('#'));
    rows.map(Drawing::read).collect()
}

fn commas(numbers: &[i64]) -> String {
    let fields: Vec<String> = numbers.iter().map(i64::to_string).collect();
    fields.join(",")
}

fn numbers(field: &str) -> Result<Vec<i64>, String> {
    if field.is_empty() {
        return Ok(Vec::new());
    }
    field.split(',').map(|n| n.parse().map_err(|e| format!("{n}: {e}"))).collect()
}

/// A random drawing of at most `most` points (and four or so more where the family needs them).
/// W and A are 256, or just what the drawing needs, or one less; now and then a limit is broken.
pub fn random_drawing(random: &mut Random, most: usize) -> Drawing {
    let kind = if random.one_in(3) { Kind::Open } else { Kind::Closed };
    let family = random.pick(&FAMILIES);
    let (rect, mut path) = family(random, most.max(1));
    if random.one_in(4) {
        repeat_points(random, &mut path);
    }
    if random.one_in(4) {
        path = backwards(&path);
    }
    let (w, a) = lent_sizes(random, kind, rect, &path);
    let mut drawing = Drawing { kind, rect, path, w, a };
    if random.one_in(64) {
        break_a_limit(random, &mut drawing);
    }
    drawing
}

type Family = fn(&mut Random, usize) -> (Rect, Vec<i64>);

const FAMILIES: [Family; 12] =
    [grid, on_lines, rectilinear, spikes, around, comb, thin, large, wide, star, spiral, square_spiral];

/// Any points of a grid little larger than the rectangle.
fn grid(random: &mut Random, most: usize) -> (Rect, Vec<i64>) {
    let rect = small_rect(random);
    let points = random.below(most + 1);
    (rect, many(points, || [random.between(-1, 5), random.between(-1, 5)]))
}

/// Coordinates on, beside and between the sides.
fn on_lines(random: &mut Random, most: usize) -> (Rect, Vec<i64>) {
    let rect = [0, 0, random.between(3, 12), random.between(3, 12)];
    let points = 2 + random.below(most);
    (rect, many(points, || [near(random, rect[0], rect[2]), near(random, rect[1], rect[3])]))
}

/// Steps along one axis at a time, mostly from side to side: many collinear points and overlaps on the edges.
fn rectilinear(random: &mut Random, most: usize) -> (Rect, Vec<i64>) {
    let rect = [0, 0, random.between(2, 8), random.between(2, 8)];
    let mut point = [near(random, rect[0], rect[2]), near(random, rect[1], rect[3])];
    let points = 3 + random.below(most);
    let path = many(points, || {
        let axis = random.below(2);
        point[axis] = near(random, rect[axis], rect[axis + 2]);
        point
    });
    (rect, path)
}

/// Out and back the same way, from points on the sides and inside.
fn spikes(random: &mut Random, most: usize) -> (Rect, Vec<i64>) {
    let (rect, path) = on_lines(random, most / 2 + 1);
    let mut spiked = Vec::new();
    for point in path.chunks(2) {
        spiked.extend_from_slice(point);
        if random.one_in(2) {
            let tip = [near(random, rect[0], rect[2]), near(random, rect[1], rect[3])];
            spiked.extend([tip[0], tip[1], point[0], point[1]]);
        }
    }
    (rect, spiked)
}

/// Round the rectangle, once or twice, with now and then a point on it or inside.
fn around(random: &mut Random, most: usize) -> (Rect, Vec<i64>) {
    let rect = [0, 0, random.between(2, 9), random.between(2, 9)];
    let [_, _, right, bottom] = rect;
    let rounds = if most >= 16 { 1 + random.below(2) } else { 1 };
    let begin = random.below(4);
    let mut path = Vec::new();
    for quarter in 0..4 * rounds {
        let (beyond_x, beyond_y) = [(false, false), (true, false), (true, true), (false, true)][(begin + quarter) % 4];
        let off = [random.between(0, 3), random.between(0, 3)];
        let x = if beyond_x { right + off[0] } else { -off[0] };
        let y = if beyond_y { bottom + off[1] } else { -off[1] };
        path.extend([x, y]);
        if random.one_in(5) {
            path.extend([near(random, 0, right), near(random, 0, bottom)]);
        }
    }
    (rect, path)
}

/// Teeth across one side: splits, rejoins and many turns.
fn comb(random: &mut Random, most: usize) -> (Rect, Vec<i64>) {
    let rect = [0, 0, 60, 60];
    let upright = random.one_in(2);
    let side = random.pick(&[0, 60]);
    let mut along = random.between(-5, 5);
    let teeth = 2 + random.below(most / 2 + 1);
    let path = many(teeth * 2, || {
        along = if random.one_in(5) { random.between(-5, 65) } else { along + random.between(-2, 4) };
        let across = if random.one_in(4) { side } else { side + random.between(-9, 9) };
        if upright {
            [along, across]
        } else {
            [across, along]
        }
    });
    (rect, path)
}

/// A rectangle one or two units wide or high, empty now and then.
fn thin(random: &mut Random, most: usize) -> (Rect, Vec<i64>) {
    let narrow = random.between(0, 2);
    let long = random.between(1, 20);
    let rect = if random.one_in(2) { [0, 0, narrow, long] } else { [0, 0, long, narrow] };
    let points = 2 + random.below(most);
    (rect, many(points, || [near(random, rect[0], rect[2]), near(random, rect[1], rect[3])]))
}

/// Coordinates up to the limit, where a crossing's rounding is worst.
fn large(random: &mut Random, most: usize) -> (Rect, Vec<i64>) {
    let mut side = || random.pick(&[-MAX_COORDINATE, -33_554_431, -20_000_001, -1, 0, 7, 16_777_217, 33_554_431]);
    let (x, y) = (side(), side());
    let mut size = |from: i64| random.between(1, MAX_COORDINATE - from);
    let rect = [x, y, x + size(x), y + size(y)];
    let points = 2 + random.below(most);
    let path = many(points, || {
        if random.one_in(4) {
            [near(random, rect[0], rect[2]), near(random, rect[1], rect[3])]
        } else {
            [far(random), far(random)]
        }
    });
    (rect, path.iter().map(|c| (*c).clamp(-MAX_COORDINATE, MAX_COORDINATE)).collect())
}

/// Points anywhere about a rectangle of middling size.
fn wide(random: &mut Random, most: usize) -> (Rect, Vec<i64>) {
    let rect = middling_rect(random);
    let points = 2 + random.below(most);
    (rect, many(points, || [random.between(-1000, 1000), random.between(-1000, 1000)]))
}

/// A star that crosses itself: every so manieth of the points of a circle, the centre in or out of the rectangle.
fn star(random: &mut Random, most: usize) -> (Rect, Vec<i64>) {
    let scale = random.pick(&SCALES);
    let rect = middling_rect(random).map(|side| scale * side);
    let centre = centre(random, rect, scale);
    let radius = scale * random.between(1, 1500);
    let points = 5 + random.below(most.saturating_sub(4).max(1));
    let step = 2 + random.below(points / 2);
    (rect, (0..points).flat_map(|i| on_circle(centre, radius, i * step, points)).collect())
}

/// A spiral of some points a round, the centre in or out of the rectangle.
fn spiral(random: &mut Random, most: usize) -> (Rect, Vec<i64>) {
    let scale = random.pick(&SCALES);
    let rect = middling_rect(random).map(|side| scale * side);
    let centre = centre(random, rect, scale);
    let (inner, outer) = (scale * random.between(0, 300), scale * random.between(300, 1500));
    let points = 3 + random.below(most);
    let a_round = random.pick(&[3, 4, 5, 8, 16, 64]);
    let radius = |i: usize| inner + (outer - inner) * i as i64 / points as i64;
    (rect, (0..points).flat_map(|i| on_circle(centre, radius(i), i, a_round)).collect())
}

/// A spiral whose arms run along the axes: many of them overlap the edges where they grow by one.
fn square_spiral(random: &mut Random, most: usize) -> (Rect, Vec<i64>) {
    let rect = middling_rect(random);
    let points = 3 + random.below(most);
    let growth = random.between(1, 1 + 2_000 / points as i64);
    let mut point = centre(random, rect, 1);
    let mut arm = 0;
    let path = many(points, || {
        let onward = if arm % 4 < 2 { 1 } else { -1 };
        point[arm % 2] += onward * growth * (1 + arm as i64 / 2);
        arm += 1;
        point
    });
    (rect, path)
}

/// How large stars and spirals are drawn; the larger takes them close to the limit.
const SCALES: [i64; 3] = [1, 1, 12_000];

/// A rectangle of middling size.
fn middling_rect(random: &mut Random) -> Rect {
    let (x, y) = (random.between(-500, 500), random.between(-500, 500));
    [x, y, x + random.between(1, 700), y + random.between(1, 700)]
}

/// A centre in the rectangle, or anywhere about it.
fn centre(random: &mut Random, [left, top, right, bottom]: Rect, scale: i64) -> [i64; 2] {
    if random.one_in(2) {
        [random.between(left, right), random.between(top, bottom)]
    } else {
        [scale * random.between(-1000, 1000), scale * random.between(-1000, 1000)]
    }
}

/// The point that stands after `at` of `of` equal steps round a circle.
fn on_circle([x, y]: [i64; 2], radius: i64, at: usize, of: usize) -> [i64; 2] {
    let part = (at % of) as f64 / of as f64;
    let along = |part: f64| (radius as f64 * sine(part)) as i64;
    [x + along((part + 0.25).fract()), y + along(part)]
}

/// Nearly the sine of a part of the full turn (Bhaskara's quotient, within 0.002): by sums, products and one quotient, so
/// that every machine makes the same drawing.
fn sine(part: f64) -> f64 {
    let (half, sign) = if part < 0.5 { (2.0 * part, 1.0) } else { (2.0 * part - 1.0, -1.0) };
    let bow = half * (1.0 - half);
    sign * 16.0 * bow / (5.0 - 4.0 * bow)
}

/// A small rectangle, empty once in sixteen times.
fn small_rect(random: &mut Random) -> Rect {
    let (left, top) = (random.between(0, 2), random.between(0, 2));
    let least = if random.one_in(16) { -1 } else { 1 };
    [left, top, left + random.between(least, 4 - left), top + random.between(least, 4 - top)]
}

/// A coordinate on, beside or between two sides.
fn near(random: &mut Random, low: i64, high: i64) -> i64 {
    let middle = low + (high - low) / 2;
    random.pick(&[low - 2, low - 1, low, low, low + 1, middle, high - 1, high, high, high + 1, high + 2])
}

/// A coordinate of any size, or at the limit.
fn far(random: &mut Random) -> i64 {
    if random.one_in(5) {
        random.pick(&[-MAX_COORDINATE, MAX_COORDINATE, 1 - MAX_COORDINATE, MAX_COORDINATE - 1])
    } else {
        random.between(-MAX_COORDINATE, MAX_COORDINATE)
    }
}

/// The coordinates of so many points.
fn many(points: usize, mut point: impl FnMut() -> [i64; 2]) -> Vec<i64> {
    (0..points).flat_map(|_| point()).collect()
}

/// Puts some points twice, or the first one again at the end.
fn repeat_points(random: &mut Random, path: &mut Vec<i64>) {
    let mut repeated = Vec::new();
    for point in path.chunks(2) {
        repeated.extend_from_slice(point);
        if random.one_in(4) {
            repeated.extend_from_slice(point);
        }
    }
    if path.len() >= 2 && random.one_in(2) {
        repeated.extend_from_slice(&path[..2]);
    }
    *path = repeated;
}

/// The same points in the other direction.
fn backwards(path: &[i64]) -> Vec<i64> {
    path.rchunks(2).flatten().copied().collect()
}

/// W and A: mostly 256, sometimes just enough or one short. Lines have A = 0.
fn lent_sizes(random: &mut Random, kind: Kind, rect: Rect, path: &[i64]) -> (usize, usize) {
    let needed = run(kind, rect, path);
    let mut size = |least: usize| match random.below(8) {
        0 => least,
        1 => least.saturating_sub(1),
        _ => 256,
    };
    let w = size(needed.least_w());
    let a = if kind == Kind::Closed { size(needed.turns as usize) } else { 0 };
    (w, a)
}

/// An odd number of coordinates, or one coordinate just beyond the limit.
fn break_a_limit(random: &mut Random, drawing: &mut Drawing) {
    let beyond = random.pick(&[MAX_COORDINATE + 1, -MAX_COORDINATE - 1, i64::MAX, i64::MIN]);
    match random.below(3) {
        0 => drawing.path.push(0),
        1 => drawing.rect[random.below(4)] = beyond,
        _ if drawing.path.is_empty() => drawing.path.push(beyond),
        _ => {
            let at = random.below(drawing.path.len());
            drawing.path[at] = beyond;
        }
    }
}
