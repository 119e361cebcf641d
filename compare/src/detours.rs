//! Pairs of paths that differ in a detour alone (document 02, 10/13): a point strictly inside the rectangle, directly
//! behind it a run of points that are all strictly beyond one same edge, the first of them beyond no other edge. Both runs
//! begin with the same point and end with the same point. One condition may be dropped, to see that such pairs differ.

use crate::drawings::{random_drawing, Drawing};
use crate::judge::{in_limit, Kind, Rect, FIRMWARE, MAX_COORDINATE, MAX_PATH};
use crate::random::Random;

/// Points on the edges at most, at either end of a path.
const EDGE_POINTS: usize = 8;

/// A condition that two paths must meet to be clipped alike.
#[derive(Clone, Copy, Debug, PartialEq, Eq)]
pub enum Condition {
    /// The point before the run is strictly inside, not on an edge.
    Inside,
    /// The run's first point is kept, and is beyond no other edge.
    Only,
    /// All points of the run are beyond the edge.
    Beyond,
    /// The run's last point is kept.
    Last,
    /// Closed paths have three points at least.
    Three,
}

/// Two paths that differ in the run alone.
#[derive(Clone, Debug)]
pub struct Pair {
    /// The edge that the runs are beyond.
    edge: Edge,
    front: Vec<i64>,
    /// The point before the run.
    before: [i64; 2],
    runs: [Vec<i64>; 2],
    back: Vec<i64>,
}

impl Pair {
    /// Both drawings, with the firmware's W and A.
    pub fn drawings(&self, kind: Kind) -> [Drawing; 2] {
        let a = if kind == Kind::Closed { FIRMWARE } else { 0 };
        self.runs.each_ref().map(|run| {
            let path = [&self.front[..], &self.before, run, &self.back].concat();
            Drawing { kind, rect: self.edge.rect, path, w: FIRMWARE, a }
        })
    }

    /// Both rows, with the Rust's answers.
    pub fn rows(&self, kind: Kind) -> String {
        self.drawings(kind).map(|drawing| drawing.row()).join("\n")
    }

    /// The conditions that the two paths do not meet.
    pub fn broken(&self, kind: Kind) -> Vec<Condition> {
        let [left, top, right, bottom] = self.edge.rect;
        let [x, y] = self.before;
        let [one, two] = &self.runs;
        let others = self.edge.others();
        let few = self.drawings(kind).iter().any(|drawing| drawing.path.len() < 6);
        let met = [
            (Condition::Inside, left < x && x < right && top < y && y < bottom),
            (Condition::Only, one[..2] == two[..2] && !others.iter().any(|edge| edge.is_passed_by(&one[..2]))),
            (Condition::Beyond, one.chunks(2).chain(two.chunks(2)).all(|point| self.edge.is_passed_by(point))),
            (Condition::Last, one[one.len() - 2..] == two[two.len() - 2..]),
            (Condition::Three, kind == Kind::Open || !few),
        ];
        met.into_iter().filter(|(_, met)| !met).map(|(condition, _)| condition).collect()
    }
}

/// A random pair. Before the run and behind it stand the points of a random drawing of at most `most`, points on the edges,
/// or none. The dropped condition, if one is named, is broken where there is room; the others are met (but that a closed path
/// may have two points).
pub fn random_pair(random: &mut Random, most: usize, dropped: Option<Condition>) -> Pair {
    let (edge, path) = edge_and_path(random, most);
    let without = |condition| dropped == Some(condition);
    let before = if without(Condition::Inside) { on_edge(random, edge.rect) } else { inside(random, edge.rect) };
    let first = if without(Condition::Only) { edge.corner(random) } else { edge.only(random) };
    let last = if random.one_in(4) { first } else { edge.any(random) };
    let [front, back] = if without(Condition::Three) { [vec![], vec![]] } else { ends(random, edge.rect, &path) };
    // Points for `before` and for both ends of a run, and for two more where the runs are spoiled.
    let set = if dropped.is_some() { 5 } else { 3 };
    let spare = MAX_PATH - set - (front.len() + back.len()) / 2;
    let mut runs = [(); 2].map(|()| edge.run(random, first, last, spare));
    if let Some(condition) = dropped {
        spoil(random, edge, condition, &mut runs);
    }
    Pair { edge, front, before, runs, back }
}

/// Breaks a condition on the runs.
fn spoil(random: &mut Random, edge: Edge, condition: Condition, [one, other]: &mut [Vec<i64>; 2]) {
    let first = [other[0], other[1]];
    match condition {
        Condition::Inside | Condition::Only => (),
        Condition::Beyond => drop(other.splice(0..0, [first, inside(random, edge.rect)].concat())),
        Condition::Last => other.extend(edge.any(random)),
        Condition::Three => {
            *one = first.to_vec();
            other.extend(first);
        }
    }
}

/// An edge with room beyond it, of a rectangle that has points strictly inside; and a random drawing's points.
fn edge_and_path(random: &mut Random, most: usize) -> (Edge, Vec<i64>) {
    loop {
        let Drawing { rect, mut path, .. } = random_drawing(random, most);
        path.truncate(2 * (MAX_PATH - 4 * EDGE_POINTS));
        let whole = path.len().is_multiple_of(2) && in_limit(&rect) && in_limit(&path);
        let edge = Edge { rect, axis: random.below(2), high: random.one_in(2) };
        let has_inside = || rect[2] - rect[0] >= 2 && rect[3] - rect[1] >= 2;
        if whole && has_inside() && edge.room() > 0 {
            return (edge, path);
        }
    }
}

/// What stands before and behind: the drawing's points, parted anywhere, or none of them; and some points on the edges at
/// the path's ends.
fn ends(random: &mut Random, rect: Rect, path: &[i64]) -> [Vec<i64>; 2] {
    let (front, back) = path.split_at(2 * random.below(path.len() / 2 + 1));
    let [front, back] = [front, back].map(|part| if random.one_in(3) { &[] } else { part });
    let [before, behind] = [(); 2].map(|()| {
        let points = if random.one_in(3) { 1 + random.below(EDGE_POINTS) } else { 0 };
        (0..points).flat_map(|_| on_edge(random, rect)).collect::<Vec<i64>>()
    });
    [[&before, front].concat(), [back, &behind].concat()]
}

/// An edge of a rectangle: across it x (0) or y (1), at the lower or the higher side.
#[derive(Clone, Copy, Debug, PartialEq, Eq)]
struct Edge {
    rect: Rect,
    axis: usize,
    high: bool,
}

impl Edge {
    /// The other three edges of the rectangle.
    fn others(&self) -> Vec<Edge> {
        let all = [(0, false), (0, true), (1, false), (1, true)].map(|(axis, high)| Edge { axis, high, ..*self });
        all.into_iter().filter(|edge| edge != self).collect()
    }

    /// Whether a point is strictly beyond the edge.
    fn is_passed_by(&self, point: &[i64]) -> bool {
        let across = point[self.axis];
        if self.high {
            across > self.rect[self.axis + 2]
        } else {
            across < self.rect[self.axis]
        }
    }

    /// How far a point may be beyond the edge.
    fn room(&self) -> i64 {
        MAX_COORDINATE - if self.high { self.rect[self.axis + 2] } else { -self.rect[self.axis] }
    }

    /// The ends of the edge, along it.
    fn span(&self) -> [i64; 2] {
        [self.rect[1 - self.axis], self.rect[3 - self.axis]]
    }

    /// The point beyond the edge that stands there along it.
    fn at(&self, random: &mut Random, along: i64) -> [i64; 2] {
        let room = self.room();
        let most = random.pick(&[1, 4, 40, 1000, MAX_COORDINATE]);
        let away = if random.one_in(8) { room } else { random.between(1, most.min(room)) };
        let across = if self.high { self.rect[self.axis + 2] + away } else { self.rect[self.axis] - away };
        if self.axis == 0 {
            [across, along]
        } else {
            [along, across]
        }
    }

    /// A point beyond this edge and no other.
    fn only(&self, random: &mut Random) -> [i64; 2] {
        let [low, high] = self.span();
        let along = if random.one_in(6) { random.pick(&[low, high]) } else { random.between(low, high) };
        self.at(random, along)
    }

    /// A point beyond this edge and one beside it, if either end has room.
    fn corner(&self, random: &mut Random) -> [i64; 2] {
        let [low, high] = self.span();
        let away = random.pick(&[1, 2, 30, 1000]);
        let below = high == MAX_COORDINATE || low > -MAX_COORDINATE && random.one_in(2);
        let along = if below { low - away } else { high + away };
        self.at(random, along.clamp(-MAX_COORDINATE, MAX_COORDINATE))
    }

    /// A point beyond this edge, and beyond others too as it comes.
    fn any(&self, random: &mut Random) -> [i64; 2] {
        let [low, high] = self.span();
        let away = random.pick(&[4, 40, 1000]);
        let along = match random.below(5) {
            0 => return self.only(random),
            1 => random.pick(&[-MAX_COORDINATE, MAX_COORDINATE]),
            2 => random.between(-MAX_COORDINATE, MAX_COORDINATE),
            _ => random.between(low - away, high + away),
        };
        self.at(random, along.clamp(-MAX_COORDINATE, MAX_COORDINATE))
    }

    /// A run from the first point to the last, with at most `spare` points between; where the two are equal, now and then
    /// that point alone.
    fn run(&self, random: &mut Random, first: [i64; 2], last: [i64; 2], spare: usize) -> Vec<i64> {
        if first == last && random.one_in(2) {
            return first.to_vec();
        }
        let between = match random.below(200) {
            0 => spare,
            1..=19 => random.below(60),
            20..=79 => 0,
            _ => 1 + random.below(4),
        };
        let (mut run, mut point) = (first.to_vec(), first);
        for _ in 0..between.min(spare) {
            point = if random.one_in(5) { point } else { self.any(random) };
            run.extend(point);
        }
        run.extend(last);
        run
    }
}

/// A point strictly inside.
fn inside(random: &mut Random, [left, top, right, bottom]: Rect) -> [i64; 2] {
    [random.between(left + 1, right - 1), random.between(top + 1, bottom - 1)]
}

/// A point on an edge, a corner once in four times.
fn on_edge(random: &mut Random, rect: Rect) -> [i64; 2] {
    let [left, top, right, bottom] = rect;
    let corner = [random.pick(&[left, right]), random.pick(&[top, bottom])];
    match random.below(8) {
        0 | 1 => corner,
        2..=4 => [random.between(left, right), corner[1]],
        _ => [corner[0], random.between(top, bottom)],
    }
}

#[cfg(test)]
mod tests {
    use super::*;

    /// What each of some pairs breaks, as a closed pair and as an open one.
    fn broken(dropped: Option<Condition>) -> [Vec<Vec<Condition>>; 2] {
        let mut random = Random::new(4);
        let pairs: Vec<Pair> = (0..2_000).map(|_| random_pair(&mut random, 9, dropped)).collect();
        [Kind::Closed, Kind::Open].map(|kind| pairs.iter().map(|pair| pair.broken(kind)).collect())
    }

    #[test]
    fn a_pair_meets_every_condition() {
        let [closed, open] = broken(None);
        assert!(open.iter().all(Vec::is_empty));
        assert!(closed.iter().all(|broken| broken.is_empty() || *broken == [Condition::Three]));
        assert!(closed.iter().any(Vec::is_empty) && !closed.iter().all(Vec::is_empty));
    }

    #[test]
    fn a_dropped_condition_alone_is_broken() {
        for condition in [Condition::Inside, Condition::Only, Condition::Beyond, Condition::Last] {
            let [_, open] = broken(Some(condition));
            assert!(open.iter().all(|broken| broken.is_empty() || *broken == [condition]), "{condition:?}");
            assert!(open.iter().filter(|broken| broken.is_empty()).count() < 100, "{condition:?}");
        }
        let [closed, open] = broken(Some(Condition::Three));
        assert!(closed.iter().all(|broken| *broken == [Condition::Three]) && open.iter().all(Vec::is_empty));
    }

    #[test]
    fn pairs_are_within_the_limits() {
        let mut random = Random::new(5);
        let mut longest = 0;
        for drawing in (0..2_000).flat_map(|_| random_pair(&mut random, 9, None).drawings(Kind::Open)) {
            assert!(in_limit(&drawing.rect) && in_limit(&drawing.path));
            longest = longest.max(drawing.path.len() / 2);
        }
        assert_eq!(longest, MAX_PATH);
    }
}
