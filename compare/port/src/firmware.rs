//! The entries of libfirmware.a, as include/rectclip.h declares them: everything but the rectangle passes as bytes.

use compare::judge::{signed_words, Kind, Rect};

mod exported {
    #[rustfmt::skip]
    extern "C" {
        pub fn rect_clip64(
            left: i64, top: i64, right: i64, bottom: i64, path: *const u8, path_bytes: usize,
            coordinates: *mut u8, coordinates_bytes: usize, lengths: *mut u8, lengths_bytes: usize,
            counts: *mut u8, counts_bytes: usize,
        ) -> u32;
        pub fn rect_clip_lines64(
            left: i64, top: i64, right: i64, bottom: i64, path: *const u8, path_bytes: usize,
            coordinates: *mut u8, coordinates_bytes: usize, lengths: *mut u8, lengths_bytes: usize,
            counts: *mut u8, counts_bytes: usize,
        ) -> u32;
    }
}

/// The byte lists that a call is lent.
#[derive(Clone, Debug, PartialEq, Eq)]
pub struct Lists {
    pub coordinates: Vec<u8>,
    pub lengths: Vec<u8>,
    pub counts: Vec<u8>,
}

/// How many bytes each of the three lists has.
#[derive(Clone, Copy, Debug, PartialEq, Eq)]
pub struct Sizes {
    pub coordinates: usize,
    pub lengths: usize,
    pub counts: usize,
}

impl Lists {
    /// Lists of the given sizes, filled with what `number` gives.
    pub fn filled(sizes: Sizes, mut number: impl FnMut() -> u64) -> Self {
        let mut bytes = |size: usize| (0..size).map(|_| number() as u8).collect();
        Lists { coordinates: bytes(sizes.coordinates), lengths: bytes(sizes.lengths), counts: bytes(sizes.counts) }
    }

    /// The paths of a result.
    pub fn paths(&self) -> Vec<Vec<i64>> {
        let counts = signed_words(&self.counts);
        let mut rest = signed_words(&self.coordinates[..8 * counts[1] as usize]);
        let lengths = signed_words(&self.lengths[..4 * counts[0] as usize]);
        lengths.iter().map(|&points| rest.drain(..2 * points as usize).collect()).collect()
    }
}

/// The port's answer: 0 or the refusal's number.
#[rustfmt::skip]
pub fn clip(kind: Kind, rect: Rect, path: &[u8], lists: &mut Lists) -> u32 {
    let [left, top, right, bottom] = rect;
    let Lists { coordinates, lengths, counts } = lists;
    let entry = if kind == Kind::Closed { exported::rect_clip64 } else { exported::rect_clip_lines64 };
    unsafe {
        entry(
            left, top, right, bottom, path.as_ptr(), path.len(),
            coordinates.as_mut_ptr(), coordinates.len(), lengths.as_mut_ptr(), lengths.len(),
            counts.as_mut_ptr(), counts.len(),
        )
    }
}
