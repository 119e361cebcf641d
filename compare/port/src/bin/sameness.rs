//! Compares the port with the Rust: answers, order, starting points, refusals, and every list afterwards; and holds what the
//! port returned to the facts of `compare::facts`, the area equation and the sources of points among them.
//!
//!     sameness COUNT SEED [POINTS [FIRST]]   random drawings of at most POINTS points (12 unless given), closed and open
//!     sameness --grid                        every path of three points on a small grid, and every line
//!
//! Each drawing is tried with lists exactly long enough, plenty, one short and one longer, filled with rubbish before the
//! call; some are damaged too. A difference stops it with the input, and with the words that repeat it alone.

use compare::drawings::random_drawing;
use compare::judge::{self, work_needed, Kind, Lent, MAX_PATH, MAX_POINTS, MAX_TURNS};
use compare::lists::{around, least};
use compare::random::Random;
use port::harness::{present, Lists};
use port::series::{Seen, Series};
use port::sheet::Sheet;
use port::{damage, KINDS};
use std::env;

fn main() -> Result<(), String> {
    let words: Vec<String> = env::args().skip(1).collect();
    let seen = if words == ["--grid"] { grid() } else { Series::read("sameness", &words, 12)?.run(random) };
    println!("sameness: {seen}");
    Ok(())
}

/// A random drawing under every list around the least ones; one in eight is damaged besides.
fn random(random: &mut Random, points: usize, seen: &mut Seen) {
    let drawing = random_drawing(random, points);
    let sheet = Sheet::new(random.pick(&KINDS), drawing.rect, drawing.path);
    try_all(&sheet, random, seen);
    if random.one_in(8) {
        try_any(&damaged(sheet, random), random, seen);
    }
}

/// Paths of three points on the grid from -1 to 3 around the rectangle 0,0,2,2, and lines of two and three.
fn grid() -> Seen {
    let mut random = Random::new(1);
    let points: Vec<[i64; 2]> = (-1..=3).flat_map(|x| (-1..=3).map(move |y| [x, y])).collect();
    let mut seen = Seen::default();
    let mut each = |kind, path: Vec<i64>| try_all(&Sheet::new(kind, [0, 0, 2, 2], path), &mut random, &mut seen);
    for a in &points {
        for b in &points {
            each(Kind::Open, [*a, *b].concat());
            for c in &points {
                KINDS.iter().for_each(|&kind| each(kind, [*a, *b, *c].concat()));
            }
        }
    }
    seen
}

/// The sheet with another rectangle, with a coordinate more or one at the limit or outside, or with too many points.
fn damaged(sheet: Sheet, random: &mut Random) -> Sheet {
    let Sheet { kind, rect, mut path, .. } = sheet;
    let rect = if random.one_in(3) { damage::rect(random, rect) } else { rect };
    match random.below(40) {
        0 if !path.is_empty() => path = path.iter().copied().cycle().take(2 * MAX_PATH + 2).collect(),
        1..=9 => path.push(random.pick(&damage::NEAR_LIMIT)),
        10..=29 if !path.is_empty() => {
            let at = random.below(path.len());
            path[at] = random.pick(&[damage::NEAR_LIMIT.as_slice(), &[i64::MIN, i64::MAX]].concat());
        }
        _ => (),
    }
    Sheet::new(kind, rect, path)
}

/// All lists around the least ones, and `present`.
fn try_all(sheet: &Sheet, random: &mut Random, seen: &mut Seen) {
    let few = Lent { w: 16, a: 16, work: 528, coordinates: 64, lengths: 16 };
    let tried = sheet.run.as_ref().map_or(vec![few], around);
    for lent in tried {
        seen.count(try_one(sheet, lent, Lists::filled(lent, || random.bits())));
    }
    try_present(sheet);
}

/// Some lists of any sizes, a store of an odd length and a list of counts that is too short among them.
fn try_any(sheet: &Sheet, random: &mut Random, seen: &mut Seen) {
    let least = sheet.run.as_ref().map_or(Lent { w: 4, a: 4, work: 144, coordinates: 8, lengths: 1 }, least);
    for _ in 0..4 {
        let mut lent = Lent { w: damage::length(random, least.w), a: damage::length(random, least.a), ..least };
        match random.below(400) {
            0 => lent.w = MAX_POINTS + random.below(2),
            1 => lent.a = MAX_TURNS + random.below(2),
            2 => lent.a = u32::MAX as usize,
            _ => (),
        }
        let needed = if lent.a > MAX_TURNS { 0 } else { work_needed(lent.w, lent.a) };
        lent.work = random.pick(&[needed, needed, needed + 1, needed.saturating_sub(1), 0]);
        lent.coordinates = damage::length(random, least.coordinates);
        lent.lengths = damage::length(random, least.lengths);
        let mut lists = Lists::filled(lent, || random.bits());
        lists.store.extend(random.one_in(3).then_some(77));
        lists.counts.resize(if random.one_in(6) { random.below(5) } else { 3 }, 77);
        seen.count(try_one(sheet, lent, lists));
    }
    try_present(sheet);
}

/// One call, against the right answer and what it leaves in every list. Gives the answer's number.
fn try_one(sheet: &Sheet, lent: Lent, before: Lists) -> u32 {
    let (said, after) = sheet.call(lent, before.clone());
    let wrong = sheet.wrong(lent, before, said, &after);
    assert!(wrong.is_none(), "{}", wrong.unwrap_or_default());
    said
}

fn try_present(sheet: &Sheet) {
    let right = match judge::present(sheet.rect, &sheet.path) {
        Ok(yes) => yes as u32,
        Err(number) => 100 + number,
    };
    assert_eq!(present(sheet.rect, &sheet.path), right, "present of {:?}, {:?}", sheet.rect, sheet.path);
}
