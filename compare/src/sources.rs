//! Where a returned point may come from, as document 01 has it: an input point in or on the rectangle, a corner, or on each
//! axis less than 1 + 1/33,554,432 from the exact crossing of an input segment with an edge, in whole numbers.

use crate::judge::{coordinates_of, rect_of, Kind, Rect, MAX_COORDINATE};
use std::collections::{HashMap, HashSet};

type Point = [i64; 2];

/// The sources of one drawing.
pub struct Sources {
    /// Input points in or on the rectangle, and corners.
    points: HashSet<Point>,
    edges: [Edge; 4],
    /// Exact crossings by the edge and the whole part of their coordinate along it.
    crossings: HashMap<(usize, i64), Vec<Crossing>>,
}

impl Sources {
    pub fn of(kind: Kind, rect: Rect, path: &[i64]) -> Self {
        let [left, top, right, bottom] = rect;
        let in_or_on = |p: &Point| left <= p[0] && p[0] <= right && top <= p[1] && p[1] <= bottom;
        let corners = coordinates_of(&rect_of(rect).as_path());
        let points = points_of(path).filter(in_or_on).chain(points_of(&corners)).collect();
        let edges = edges_of(rect);
        let mut crossings: HashMap<(usize, i64), Vec<Crossing>> = HashMap::new();
        for (a, b) in segments(kind, path) {
            for (i, edge) in edges.iter().enumerate() {
                if let Some(crossing) = edge.crossing(a, b) {
                    crossings.entry((i, crossing.whole())).or_default().push(crossing);
                }
            }
        }
        Sources { points, edges, crossings }
    }

    pub fn has(&self, p: Point) -> bool {
        self.points.contains(&p) || (0..4).any(|i| self.near_crossing(i, p))
    }

    /// Whether p is near a crossing with this edge. The whole part of such a crossing is at most two from p's coordinate.
    fn near_crossing(&self, i: usize, p: Point) -> bool {
        let edge = &self.edges[i];
        let along = p[1 - edge.across];
        let close = (along - 2..=along + 1).filter_map(|whole| self.crossings.get(&(i, whole)));
        close.flatten().any(|crossing| crossing.is_near(edge, p))
    }
}

/// The edge on which coordinate `across` is `line` and the other one runs from `low` to `high`.
struct Edge {
    across: usize,
    line: i64,
    low: i64,
    high: i64,
}

fn edges_of([left, top, right, bottom]: Rect) -> [Edge; 4] {
    let upright = |line| Edge { across: 0, line, low: top, high: bottom };
    let level = |line| Edge { across: 1, line, low: left, high: right };
    [upright(left), level(top), upright(right), level(bottom)]
}

/// An exact crossing: its coordinate along the edge is `along / extent`.
struct Crossing {
    along: i128,
    extent: i128,
}

impl Edge {
    /// The exact crossing with the segment from a to b.
    fn crossing(&self, a: Point, b: Point) -> Option<Crossing> {
        let (across, other) = (self.across, 1 - self.across);
        let (a, b) = if a[across] < b[across] { (a, b) } else { (b, a) };
        let wide = i128::from;
        let extent = wide(b[across] - a[across]);
        if extent == 0 || self.line < a[across] || b[across] < self.line {
            return None;
        }
        let along = wide(a[other]) * extent + wide(self.line - a[across]) * wide(b[other] - a[other]);
        let on_edge = wide(self.low) * extent <= along && along <= wide(self.high) * extent;
        on_edge.then_some(Crossing { along, extent })
    }
}

impl Crossing {
    fn whole(&self) -> i64 {
        self.along.div_euclid(self.extent) as i64
    }

    /// Both sides of the bound are multiplied by the extent and by the limit.
    fn is_near(&self, edge: &Edge, p: Point) -> bool {
        let (limit, extent) = (i128::from(MAX_COORDINATE), self.extent);
        let close = |coordinate: i64, crossing: i128| {
            (i128::from(coordinate) * extent - crossing).abs() * limit < extent * (limit + 1)
        };
        close(p[edge.across], i128::from(edge.line) * extent) && close(p[1 - edge.across], self.along)
    }
}

fn points_of(path: &[i64]) -> impl Iterator<Item = Point> + '_ {
    path.chunks_exact(2).map(|c| [c[0], c[1]])
}

/// The segments of a path; of a closed one with its closing segment.
fn segments(kind: Kind, path: &[i64]) -> impl Iterator<Item = (Point, Point)> {
    let points: Vec<Point> = points_of(path).collect();
    let n = points.len();
    let count = if kind == Kind::Closed { n } else { n.saturating_sub(1) };
    (0..count).map(move |i| (points[i], points[(i + 1) % n]))
}

#[cfg(test)]
mod tests {
    use super::*;

    #[test]
    fn near_is_at_most_a_little_over_one() {
        // The line 0,0 to 3,10 crosses the edge y = 5 at x = 3/2.
        let sources = Sources::of(Kind::Open, [-20, 5, 20, 30], &[0, 0, 3, 10]);
        let near = |p: Point| sources.has(p);
        assert!(near([1, 5]) && near([2, 5]) && near([2, 4]) && near([1, 6]));
        assert!(!near([0, 5]) && !near([3, 5]) && !near([1, 3]) && !near([1, 7]));
    }

    #[test]
    fn input_points_outside_are_no_sources() {
        let sources = Sources::of(Kind::Open, [0, 0, 9, 9], &[3, 3, 20, 3]);
        assert!(sources.has([3, 3]) && sources.has([9, 3]) && sources.has([9, 9]));
        assert!(!sources.has([20, 3]) && !sources.has([4, 3]));
    }

    #[test]
    fn a_crossing_is_on_the_edge_and_across_it() {
        let edge = Edge { across: 1, line: 5, low: 0, high: 9 };
        assert!(edge.crossing([0, 0], [3, 10]).is_some());
        assert!(edge.crossing([3, 10], [0, 5]).is_some(), "an end on the edge");
        assert!(edge.crossing([10, 0], [13, 10]).is_none(), "off the edge");
        assert!(edge.crossing([0, 5], [3, 5]).is_none(), "no extent across the edge");
        assert!(edge.crossing([0, 6], [3, 10]).is_none(), "the segment ends before");
    }

    #[test]
    fn only_a_closed_path_has_its_closing_segment() {
        let has = |kind| Sources::of(kind, [0, 0, 9, 9], &[-5, 8, 2, 2, 2, 8]).has([0, 8]);
        assert!(has(Kind::Closed) && !has(Kind::Open));
    }
}
