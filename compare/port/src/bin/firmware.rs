//! Compares the exported entries with the Rust under W = A = 256: the value, the bytes that are filled, and every other byte;
//! and holds what they returned to the facts of `compare::facts`.
//!
//!     firmware COUNT SEED [POINTS [FIRST]]   random drawings of at most POINTS points (128 unless given), closed and open
//!
//! Each drawing is tried with byte lists exactly long enough, one byte short, one longer, and as long as rectclip.h says; then
//! damaged: bytes that make no whole points, too many points, coordinates and rectangles at the limit and outside, empty
//! rectangles, any four numbers. A difference stops it with the input, and with the words that repeat it alone.

use compare::drawings::random_drawing;
use compare::facts::broken;
use compare::judge::{exported, run, signed_words, Answer, Drawn, Kind, Rect, MAX_SHORT_PATH};
use compare::random::Random;
use port::firmware::{clip, Lists, Sizes};
use port::series::{Seen, Series};
use port::{damage, KINDS};
use std::env;

/// RECT_CLIP_COORDINATES, RECT_CLIP_LENGTHS and RECT_CLIP_COUNTS of include/rectclip.h.
const HEADER: Sizes = Sizes { coordinates: 2048, lengths: 1028, counts: 12 };

fn main() -> Result<(), String> {
    let words: Vec<String> = env::args().skip(1).collect();
    println!("firmware: {}", Series::read("firmware", &words, MAX_SHORT_PATH)?.run(random));
    Ok(())
}

/// A random drawing, and the same one damaged.
fn random(random: &mut Random, points: usize, seen: &mut Seen) {
    let (mut rect, path) = if random.one_in(8) { scattered(random, points) } else { drawn(random, points) };
    let kind = random.pick(&KINDS);
    let mut bytes: Vec<u8> = path.iter().flat_map(|&c| (c as i32).to_le_bytes()).collect();
    try_all(kind, rect, &bytes, random, seen);
    if random.one_in(2) {
        damage_path(random, &mut bytes);
    }
    if random.one_in(2) {
        rect = damage::rect(random, rect);
    }
    try_all(kind, rect, &bytes, random, seen);
}

/// A drawing of some family, more often a small one.
fn drawn(random: &mut Random, points: usize) -> (Rect, Vec<i64>) {
    let most = random.pick(&[points, points / 4 + 1, points / 16 + 1]);
    let drawing = random_drawing(random, most);
    (drawing.rect, drawing.path)
}

/// So many points anywhere about the rectangle, or to and fro between two of its corners: often more than 256 tidy turns, or
/// more than 256 points of the walk.
fn scattered(random: &mut Random, points: usize) -> (Rect, Vec<i64>) {
    let (reach, diagonal) = (random.pick(&[10, 75, 200]), random.one_in(2));
    let mut coordinate = |i: usize| match (diagonal, i / 2 % 2) {
        (true, 0) => random.between(-reach, 1),
        (true, _) => random.between(99, 100 + reach),
        (false, _) => random.between(-reach, 100 + reach),
    };
    ([0, 0, 100, 100], (0..2 * points).map(&mut coordinate).collect())
}

/// Bytes off or too many, points at the most and above, a coordinate at the limit and outside, or any bytes.
fn damage_path(random: &mut Random, bytes: &mut Vec<u8>) {
    match random.below(4) {
        0 if bytes.len() > 7 => bytes.truncate(bytes.len() - 1 - random.below(7)),
        1 if bytes.len() > 3 => {
            let at = 4 * random.below(bytes.len() / 4);
            let beyond = random.pick(&[damage::NEAR_LIMIT.as_slice(), &[i32::MAX.into(), i32::MIN.into()]].concat());
            bytes[at..at + 4].copy_from_slice(&(beyond as i32).to_le_bytes());
        }
        2 if !bytes.is_empty() => {
            let points = MAX_SHORT_PATH + random.pick(&[0, 1, 2, 128, 4_000]);
            *bytes = bytes.iter().copied().cycle().take(8 * points + random.pick(&[0, 0, 0, 1, 4, 7])).collect();
        }
        _ => bytes.extend((0..random.below(40)).map(|_| random.bits() as u8)),
    }
}

/// Every size around the least ones.
fn try_all(kind: Kind, rect: Rect, bytes: &[u8], random: &mut Random, seen: &mut Seen) {
    let tried = match exported(kind, rect, bytes, HEADER.coordinates, HEADER.lengths, HEADER.counts) {
        Answer::Drawn(drawn) => around(&drawn),
        Answer::Refused(_) => vec![HEADER, Sizes { coordinates: 0, lengths: 0, counts: 0 }],
    };
    for sizes in tried {
        seen.count(try_one(kind, rect, bytes, Lists::filled(sizes, || random.bits())));
    }
}

/// What the header says; just enough; each list in turn one byte less, where it has one, and one, three and more bytes longer.
fn around(drawn: &Drawn) -> Vec<Sizes> {
    let least = Sizes { coordinates: 8 * drawn.points(), lengths: 4 * drawn.paths(), counts: 12 };
    let mut all = vec![HEADER, least, Sizes { counts: 0, ..least }];
    let lists: [fn(&mut Sizes) -> &mut usize; 3] = [|s| &mut s.coordinates, |s| &mut s.lengths, |s| &mut s.counts];
    for list in lists {
        for other in [-1_isize, 1, 3, 100] {
            let mut sizes = least;
            let bytes = list(&mut sizes);
            if let Some(changed) = bytes.checked_add_signed(other) {
                *bytes = changed;
                all.push(sizes);
            }
        }
    }
    all
}

/// One call, against the right value and what it leaves in every list. Gives the value.
fn try_one(kind: Kind, rect: Rect, bytes: &[u8], before: Lists) -> u32 {
    let (mut right, mut after) = (before.clone(), before);
    let said = clip(kind, rect, bytes, &mut after);
    let sizes = (right.coordinates.len(), right.lengths.len(), right.counts.len());
    let input = || format!("{kind:?} {rect:?} {bytes:?} with lists of {sizes:?} bytes");
    let number = match exported(kind, rect, bytes, sizes.0, sizes.1, sizes.2) {
        Answer::Refused(number) => number,
        Answer::Drawn(drawn) => {
            put(&mut right.coordinates, drawn.coordinates.iter().map(|&c| (c as i32).to_le_bytes()));
            put(&mut right.lengths, drawn.lengths.iter().map(|n| n.to_le_bytes()));
            put(&mut right.counts, [drawn.paths() as u32, drawn.points() as u32, drawn.turns].map(u32::to_le_bytes));
            0
        }
    };
    assert_eq!(said, number, "the value of {}", input());
    assert!(after == right, "the bytes after {}:\n{after:?}\ninstead of\n{right:?}", input());
    if said == 0 {
        let path = signed_words(bytes);
        let broken = broken(kind, rect, &path, &run(kind, rect, &path), after.paths());
        assert!(broken.is_none(), "not so: {broken:?} of {}", input());
    }
    said
}

/// The numbers in the leading bytes.
fn put(bytes: &mut [u8], numbers: impl IntoIterator<Item = [u8; 4]>) {
    for (place, number) in bytes.chunks_exact_mut(4).zip(numbers) {
        place.copy_from_slice(&number);
    }
}
