//! Facts that are expected of every run of the Rust within the limits. Each answers false for a counterexample.

use crate::judge::{doubled_area, Kind, Rect, Run};
use crate::sources::Sources;

pub type Fact = fn(Kind, Rect, &[i64], &Run) -> bool;

/// Every fact with its name.
pub const FACTS: [(&str, Fact); 6] = [
    ("the second search of a passing segment finds it", second_search_finds),
    ("doubled areas of the returned paths sum to the outline's", areas_add_up),
    ("what is not walked is copied or gives nothing", unwalked_is_copied),
    ("no returned point lies more than one unit outside", at_most_one_outside),
    ("every returned point is an input point in the rectangle, a corner, or near an exact crossing", has_source),
    ("points at most 3n - 1 and start sides at most 2n; lines at most 2n - 2 points", walk_is_short),
];

fn second_search_finds(_: Kind, _: Rect, _: &[i64], run: &Run) -> bool {
    !run.missed
}

fn areas_add_up(kind: Kind, _: Rect, _: &[i64], run: &Run) -> bool {
    let returned: i128 = run.paths.iter().map(|p| doubled_area(p)).sum();
    kind == Kind::Open || !run.walked || returned == doubled_area(&run.stored)
}

fn unwalked_is_copied(_: Kind, _: Rect, path: &[i64], run: &Run) -> bool {
    run.walked || run.points() == 0 && (run.paths.is_empty() || run.paths == [path])
}

fn at_most_one_outside(_: Kind, [left, top, right, bottom]: Rect, _: &[i64], run: &Run) -> bool {
    let inside = |c: &[i64]| left - 1 <= c[0] && c[0] <= right + 1 && top - 1 <= c[1] && c[1] <= bottom + 1;
    run.paths.iter().flat_map(|p| p.chunks(2)).all(inside)
}

fn walk_is_short(kind: Kind, _: Rect, path: &[i64], run: &Run) -> bool {
    let n = path.len() / 2;
    match kind {
        Kind::Closed => run.points() <= (3 * n).saturating_sub(1) && run.start_sides <= 2 * n,
        Kind::Open => run.points() <= (2 * n).saturating_sub(2) && run.start_sides == 0,
    }
}

fn has_source(kind: Kind, rect: Rect, path: &[i64], run: &Run) -> bool {
    let sources = Sources::of(kind, rect, path);
    run.paths.iter().flat_map(|p| p.chunks(2)).all(|p| sources.has([p[0], p[1]]))
}

/// The first fact that does not hold of a run with these returned paths in place of its own.
pub fn broken(kind: Kind, rect: Rect, path: &[i64], run: &Run, returned: Vec<Vec<i64>>) -> Option<&'static str> {
    let run = Run { paths: returned, ..run.clone() };
    FACTS.iter().find(|(_, fact)| !fact(kind, rect, path, &run)).map(|&(name, _)| name)
}

#[cfg(test)]
mod tests {
    use super::*;
    use crate::judge::run;

    const RECT: Rect = [0, 0, 10, 10];
    const PATH: [i64; 8] = [5, 5, 15, 6, 15, 8, 5, 8];

    /// The names of the facts that a run goes against.
    fn against(run: &Run) -> Vec<&'static str> {
        FACTS.iter().filter(|(_, fact)| !fact(Kind::Closed, RECT, &PATH, run)).map(|&(name, _)| name).collect()
    }

    /// The run of PATH with one thing altered.
    fn altered(alter: impl Fn(&mut Run)) -> Run {
        let mut run = run(Kind::Closed, RECT, &PATH);
        alter(&mut run);
        run
    }

    #[test]
    fn a_true_run_meets_every_fact() {
        assert!(against(&altered(|_| ())).is_empty());
    }

    #[test]
    fn an_altered_run_goes_against_its_fact() {
        let (found, area, copied, outside, source, short) = match FACTS.map(|(name, _)| name) {
            [a, b, c, d, e, f] => (a, b, c, d, e, f),
        };
        assert_eq!(against(&altered(|run| run.missed = true)), [found]);
        assert_eq!(against(&altered(|run| run.paths.clear())), [area]);
        let backwards = |path: &[i64]| path.rchunks(2).flatten().copied().collect();
        assert_eq!(against(&altered(|run| run.paths[0] = backwards(&run.paths[0]))), [area]);
        assert_eq!(against(&altered(|run| run.walked = false)), [copied]);
        assert_eq!(against(&altered(|run| run.paths = vec![vec![12, 5, 12, 6]])), [area, outside, source]);
        assert_eq!(against(&altered(|run| run.start_sides = 9)), [short]);
    }
}
