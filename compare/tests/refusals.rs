//! Refusals 1 to 11: each exactly at its condition, and before those of higher number.

use compare::judge::{clip, exported, run, work_needed, Answer, Kind, Lent, Rect};
use Answer::Refused;
use Kind::{Closed, Open};

const SQUARE: Rect = [0, 0, 100, 100];
const BEYOND: Rect = [0, 0, 33_554_433, 1];

/// Every list too short or too long at once.
const ALL_WRONG: Lent = Lent { w: 65_537, a: 65_536, work: 0, coordinates: 0, lengths: 0 };

/// Two teeth across the top edge, which one turn parts.
const TEETH: [i64; 20] = [10, -5, 10, 5, 20, 5, 20, -5, 30, -5, 30, 5, 40, 5, 40, -5, 50, -9, 5, -9];

fn refused(kind: Kind, rect: Rect, path: &[i64], lent: Lent) -> Option<u32> {
    match clip(kind, rect, path, lent) {
        Refused(number) => Some(number),
        Answer::Drawn(_) => None,
    }
}

#[test]
fn one_to_seven_in_number_order() {
    let long = [33_554_433; 2 * 4097];
    assert_eq!(refused(Closed, BEYOND, &long[1..], ALL_WRONG), Some(1));
    assert_eq!(refused(Closed, BEYOND, &long, ALL_WRONG), Some(2));
    let lent = Lent { w: 65_536, ..ALL_WRONG };
    assert_eq!(refused(Closed, BEYOND, &long, lent), Some(3));
    assert_eq!(refused(Open, BEYOND, &long, lent), Some(4));
    let lent = Lent { a: 65_535, work: work_needed(65_536, 65_535) - 1, ..lent };
    assert_eq!(refused(Closed, BEYOND, &long, lent), Some(4));
    let lent = Lent { work: work_needed(65_536, 65_535), ..lent };
    assert_eq!(refused(Closed, BEYOND, &long, lent), Some(5));
    assert_eq!(refused(Closed, BEYOND, &long[2..], lent), Some(6));
    assert_eq!(refused(Closed, SQUARE, &long[2..], lent), Some(7));
    assert_eq!(refused(Closed, SQUARE, &[-33_554_432; 2 * 4096], lent), None);
}

#[test]
fn lines_need_work_for_no_turns() {
    let lent = |work| Lent { work, ..Lent::enough(4, 70_000) };
    assert_eq!(refused(Open, SQUARE, &[1, 1, 2, 2], lent(80)), None);
    assert_eq!(refused(Open, SQUARE, &[1, 1, 2, 2], lent(79)), Some(4));
}

#[test]
fn eight_at_the_walk_s_points() {
    let points = run(Closed, SQUARE, &TEETH).points();
    assert_eq!(refused(Closed, SQUARE, &TEETH, Lent::enough(points, 256)), None);
    assert_eq!(refused(Closed, SQUARE, &TEETH, Lent::enough(points - 1, 0)), Some(8));
    let line = [-50, 10, 150, 10];
    assert_eq!(refused(Open, SQUARE, &line, Lent::enough(2, 0)), None);
    assert_eq!(refused(Open, SQUARE, &line, Lent { coordinates: 0, ..Lent::enough(1, 0) }), Some(8));
}

#[test]
fn eight_at_the_start_sides() {
    // Twice round the rectangle without meeting it.
    let twice = [-100, 50, 50, -100, 200, 50, 50, 200, -100, 50, 50, -100, 200, 50, 50, 200];
    let around = run(Closed, SQUARE, &twice);
    assert!(around.start_sides > around.points());
    assert_eq!(refused(Closed, SQUARE, &twice, Lent::enough(around.start_sides, 256)), None);
    assert_eq!(refused(Closed, SQUARE, &twice, Lent::enough(around.start_sides - 1, 256)), Some(8));
}

#[test]
fn copies_need_no_store() {
    let inside = [0, 0, 100, 0, 100, 100];
    let lent = |coordinates, lengths| Lent { coordinates, lengths, ..Lent::enough(0, 0) };
    assert_eq!(refused(Closed, SQUARE, &inside, lent(6, 1)), None);
    assert_eq!(refused(Closed, SQUARE, &inside, lent(5, 1)), Some(11));
    assert_eq!(refused(Closed, SQUARE, &inside, lent(6, 0)), Some(11));
}

#[test]
fn ten_at_the_turns_and_before_eleven() {
    let turns = run(Closed, SQUARE, &TEETH).turns as usize;
    assert!(turns > 0);
    let lent = |a| Lent { coordinates: 0, ..Lent::enough(256, a) };
    assert_eq!(refused(Closed, SQUARE, &TEETH, lent(turns - 1)), Some(10));
    assert_eq!(refused(Closed, SQUARE, &TEETH, lent(turns)), Some(11));
}

#[test]
fn a_result_gives_paths_points_and_turns() {
    let Answer::Drawn(drawn) = clip(Closed, SQUARE, &TEETH, Lent::enough(256, 256)) else {
        panic!("refused");
    };
    assert_eq!((drawn.paths(), drawn.points()), (2, 8));
    assert_eq!(u64::from(drawn.turns), run(Closed, SQUARE, &TEETH).turns);
}

#[test]
fn exported_entry_refuses_in_order() {
    let bytes = |path: &[i32]| path.iter().flat_map(|c| c.to_le_bytes()).collect::<Vec<u8>>();
    let call = |rect, path: &[u8], lists: [usize; 3]| match exported(Open, rect, path, lists[0], lists[1], lists[2]) {
        Refused(number) => number,
        Answer::Drawn(_) => 0,
    };
    let long = bytes(&[33_554_433; 258]);
    assert_eq!(call(BEYOND, &long[4..], [0; 3]), 1);
    assert_eq!(call(BEYOND, &long, [0; 3]), 5);
    assert_eq!(call(BEYOND, &long[8..], [0; 3]), 6);
    assert_eq!(call(SQUARE, &long[8..], [0; 3]), 7);
    let line = bytes(&[-50, 10, 150, 10]);
    assert_eq!(call(SQUARE, &line, [16, 4, 12]), 0);
    assert_eq!(call(SQUARE, &line, [15, 4, 12]), 11);
    assert_eq!(call(SQUARE, &line, [16, 3, 12]), 11);
    assert_eq!(call(SQUARE, &line, [16, 4, 11]), 11);
}
