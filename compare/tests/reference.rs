//! The twelve reference drawings of document 01.

use compare::judge::{clip, present, run, Answer, Kind, Lent, Rect};
use Kind::{Closed, Open};

const SQUARE: Rect = [0, 0, 100, 100];

/// The returned paths, with W = A = 256.
fn paths(kind: Kind, rect: Rect, path: &[i64]) -> Result<Vec<Vec<i64>>, u32> {
    match clip(kind, rect, path, Lent::enough(256, 256)) {
        Answer::Refused(number) => Err(number),
        Answer::Drawn(drawn) => Ok(drawn.each_path().map(<[i64]>::to_vec).collect()),
    }
}

/// The one returned path.
fn one(kind: Kind, rect: Rect, path: &[i64]) -> Vec<i64> {
    let mut paths = paths(kind, rect, path).expect("not refused");
    assert_eq!(paths.len(), 1);
    paths.remove(0)
}

fn nothing(kind: Kind, rect: Rect, path: &[i64]) {
    assert_eq!(paths(kind, rect, path), Ok(vec![]));
}

#[test]
fn drawings_1_and_2_are_the_example() {
    let closed = one(Closed, SQUARE, &[50, 50, 150, 50, 150, 80, 50, 80]);
    assert_eq!(closed, [50, 80, 50, 50, 100, 50, 100, 80]);
    assert_eq!(one(Open, SQUARE, &[-50, 10, 150, 10]), [0, 10, 100, 10]);
}

#[test]
fn drawing_3_rounds_below_1() {
    assert_eq!(one(Open, [1, 0, 100, 100], &[49, 10, 0, 10]), [49, 10, 0, 10]);
}

#[test]
fn drawings_4_to_7() {
    assert_eq!(one(Closed, SQUARE, &[0, 0, 100, 0, 100, 100]), [0, 0, 100, 0, 100, 100]);
    nothing(Closed, [5, 0, 5, 9], &[0, 0, 9, 0, 9, 9]);
    nothing(Closed, SQUARE, &[10, 10, 20, 20]);
    let around = one(Closed, SQUARE, &[-10, -10, 110, -10, 110, 110, -10, 110]);
    assert_eq!(around, [0, 100, 0, 0, 100, 0, 100, 100]);
}

#[test]
fn drawings_8_to_11() {
    nothing(Open, SQUARE, &[-10, 10, 10, -10]);
    assert_eq!(one(Open, SQUARE, &[10, 10, 20, 20]), [10, 10, 20, 20]);
    nothing(Open, SQUARE, &[-5, 0, 50, 0]);
    assert_eq!(one(Open, SQUARE, &[-5, 0, 105, 0]), [0, 0, 100, 0]);
}

#[test]
fn drawing_12_is_the_limit() {
    assert_eq!(paths(Open, SQUARE, &[0, 0, 33_554_433, 0]), Err(7));
    assert_eq!(one(Open, SQUARE, &[0, 0, 33_554_432, 0]), [0, 0, 100, 0]);
}

#[test]
fn the_outline_is_what_add_stored() {
    let walked = run(Closed, SQUARE, &[50, 50, 150, 50, 150, 80, 50, 80]);
    assert_eq!(walked.outline(), Some(vec![50, 50, 100, 50, 100, 80, 50, 80]));
    let copied = run(Closed, SQUARE, &[0, 0, 100, 0, 100, 100]);
    assert_eq!(copied.outline(), None);
    let missed = run(Closed, SQUARE, &[101, 0, 102, 0, 102, 100]);
    assert_eq!(missed.outline(), None);
    let walked_for_nothing = run(Closed, SQUARE, &[-10, 50, -10, 200, 50, 200, 0, 120]);
    assert_eq!(walked_for_nothing.outline(), Some(vec![]));
}

#[test]
fn present_touches_and_refuses() {
    assert_eq!(present(SQUARE, &[100, 100, 200, 200]), Ok(true));
    assert_eq!(present(SQUARE, &[101, 100, 200, 200]), Ok(false));
    assert_eq!(present(SQUARE, &[]), Ok(false));
    assert_eq!(present([5, 0, 5, 9], &[5, 5]), Ok(false));
    assert_eq!(present([0, 0, 33_554_433, 1], &[0; 3]), Err(1));
    assert_eq!(present([0, 0, 33_554_433, 1], &[0; 8194]), Err(5));
    assert_eq!(present([0, 0, 33_554_433, 1], &[33_554_433, 0]), Err(6));
    assert_eq!(present(SQUARE, &[-33_554_433, 0]), Err(7));
}
