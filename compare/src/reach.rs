//! Which blocks of rectclip.rs were run, by the line that opens them. Kept for a thread, over all its paths.

use crate::MARKED_LINES;
use std::cell::RefCell;
use std::collections::BTreeSet;

thread_local! {
    static REACHED: RefCell<Vec<bool>> = RefCell::new(vec![false; MARKED_LINES.last().map_or(0, |line| line + 1)]);
}

/// The block that this line opens is run.
pub(crate) fn block(line: usize) {
    REACHED.with_borrow_mut(|reached| reached[line] = true);
}

/// The lines of rectclip.rs that open a block, of those that this thread has run or has not run.
pub fn lines(run: bool) -> BTreeSet<usize> {
    REACHED.with_borrow(|reached| MARKED_LINES.iter().copied().filter(|&line| reached[line] == run).collect())
}
