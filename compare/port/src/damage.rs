//! Rectangles, coordinates and lengths that a call should refuse, or just not.

use compare::judge::{Rect, MAX_COORDINATE};
use compare::random::Random;

/// Coordinates at the limit and just outside it.
pub const NEAR_LIMIT: [i64; 4] = [MAX_COORDINATE, -MAX_COORDINATE, MAX_COORDINATE + 1, -MAX_COORDINATE - 1];

/// The rectangle with a side at the limit or outside, or empty, or any four numbers.
pub fn rect(random: &mut Random, rect: Rect) -> Rect {
    let [left, top, right, bottom] = rect;
    let mut other = rect;
    match random.below(5) {
        0 => other[random.below(4)] = random.pick(&NEAR_LIMIT),
        1 => other[random.below(4)] = random.pick(&[i64::MIN, i64::MAX, 1 << 32, -(1 << 31)]),
        2 => other = random.pick(&[[right, top, left, bottom], [left, bottom, right, top], [left, top, left, bottom]]),
        3 => other = [0; 4].map(|_| random.bits() as i64),
        _ => other = [0; 4].map(|_| random.pick(&NEAR_LIMIT)),
    }
    other
}

/// A length around the one at which the answer changes.
pub fn length(random: &mut Random, least: usize) -> usize {
    match random.below(6) {
        0 => 0,
        1 => least.saturating_sub(1),
        2 | 3 => least,
        4 => least + 1,
        _ => random.below(2 * least + 2),
    }
}
