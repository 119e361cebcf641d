//! What the counted copy reports while it runs: one tally a thread, begun anew for each path.

use crate::core::Point64;
use std::cell::RefCell;

/// A tidy loop that turns more often than this is taken to be endless.
const MOST_TURNS: u64 = 1 << 32;

#[derive(Default)]
pub struct Tally {
    /// Whether the path was walked, and not copied or passed over.
    pub walked: bool,
    /// The points that `add` stored, in order.
    pub points: Vec<Point64>,
    /// Entries pushed to `start_locs`.
    pub start_sides: usize,
    /// Whether a second search of a passing segment found nothing.
    pub missed: bool,
    /// Passes of the outer loop of `tidy_edges`, over all four edges.
    pub turns: u64,
}

thread_local! {
    static NOW: RefCell<Tally> = RefCell::default();
}

/// The tally so far; the next one begins at nothing.
pub fn take() -> Tally {
    NOW.take()
}

pub fn walk() {
    NOW.with_borrow_mut(|now| now.walked = true);
}

pub fn point(pt: Point64) {
    NOW.with_borrow_mut(|now| now.points.push(pt));
}

pub fn start_side() {
    NOW.with_borrow_mut(|now| now.start_sides += 1);
}

pub fn second_search(found: bool) {
    NOW.with_borrow_mut(|now| now.missed |= !found);
}

pub fn turn() {
    let turns = NOW.with_borrow_mut(|now| {
        now.turns += 1;
        now.turns
    });
    assert!(turns <= MOST_TURNS, "tidy_edges does not end: more than {MOST_TURNS} turns");
}
