//! The entries of libharness.a: the public ones over plain numbers and lists of any length.

use compare::judge::{Kind, Lent, Rect};

mod exported {
    #[rustfmt::skip]
    extern "C" {
        pub fn harness_rect_clip_lines64(
            left: i64, top: i64, right: i64, bottom: i64,
            path: *const i64, path_len: usize,
            store: *mut i64, store_len: usize, work: *mut u32, work_len: usize,
            coordinates: *mut i64, coordinates_len: usize, lengths: *mut u32, lengths_len: usize,
            counts: *mut u32, counts_len: usize,
        ) -> u32;
        pub fn harness_rect_clip64(
            left: i64, top: i64, right: i64, bottom: i64,
            path: *const i64, path_len: usize, allowance: u32,
            store: *mut i64, store_len: usize, work: *mut u32, work_len: usize,
            coordinates: *mut i64, coordinates_len: usize, lengths: *mut u32, lengths_len: usize,
            counts: *mut u32, counts_len: usize,
        ) -> u32;
        pub fn harness_present(left: i64, top: i64, right: i64, bottom: i64, path: *const i64, path_len: usize) -> u32;
    }
}

/// The lists that a call is lent.
#[derive(Clone, Debug, PartialEq, Eq)]
pub struct Lists {
    pub store: Vec<i64>,
    pub work: Vec<u32>,
    pub coordinates: Vec<i64>,
    pub lengths: Vec<u32>,
    /// Paths, points and turns. The public entries give them by value; a list under three is the harness's own refusal 11.
    pub counts: Vec<u32>,
}

impl Lists {
    /// Lists of the given sizes, filled with what `number` gives.
    pub fn filled(lent: Lent, mut number: impl FnMut() -> u64) -> Self {
        Lists {
            store: (0..2 * lent.w).map(|_| number() as i64).collect(),
            work: (0..lent.work).map(|_| number() as u32).collect(),
            coordinates: (0..lent.coordinates).map(|_| number() as i64).collect(),
            lengths: (0..lent.lengths).map(|_| number() as u32).collect(),
            counts: (0..3).map(|_| number() as u32).collect(),
        }
    }

    /// The paths of a result.
    pub fn paths(&self) -> Vec<Vec<i64>> {
        let mut rest = self.coordinates.as_slice();
        let take = |&points: &u32| {
            let (path, after) = rest.split_at(2 * points as usize);
            rest = after;
            path.to_vec()
        };
        self.lengths[..self.counts[0] as usize].iter().map(take).collect()
    }
}

/// The port's answer: 0 or the refusal's number.
#[rustfmt::skip]
pub fn clip(kind: Kind, rect: Rect, path: &[i64], allowance: u32, lists: &mut Lists) -> u32 {
    let [left, top, right, bottom] = rect;
    let Lists { store, work, coordinates, lengths, counts } = lists;
    unsafe {
        match kind {
            Kind::Open => exported::harness_rect_clip_lines64(
                left, top, right, bottom, path.as_ptr(), path.len(),
                store.as_mut_ptr(), store.len(), work.as_mut_ptr(), work.len(),
                coordinates.as_mut_ptr(), coordinates.len(), lengths.as_mut_ptr(), lengths.len(),
                counts.as_mut_ptr(), counts.len(),
            ),
            Kind::Closed => exported::harness_rect_clip64(
                left, top, right, bottom, path.as_ptr(), path.len(), allowance,
                store.as_mut_ptr(), store.len(), work.as_mut_ptr(), work.len(),
                coordinates.as_mut_ptr(), coordinates.len(), lengths.as_mut_ptr(), lengths.len(),
                counts.as_mut_ptr(), counts.len(),
            ),
        }
    }
}

/// 0 no, 1 yes, 100 and the number for a refusal.
pub fn present([left, top, right, bottom]: Rect, path: &[i64]) -> u32 {
    unsafe { exported::harness_present(left, top, right, bottom, path.as_ptr(), path.len()) }
}
