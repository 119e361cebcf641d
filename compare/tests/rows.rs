//! Rows of drawings: the kept ones are what the Rust answers, and random ones hold every expected fact.

use compare::drawings::{random_drawing, read_all, Drawing};
use compare::facts::FACTS;
use compare::judge::{in_limit, run, Answer};
use compare::random::Random;
use compare::reach;

const KEPT: &str = include_str!("../kept.txt");

#[test]
fn kept_rows_are_the_rust_s() {
    let rows: Vec<&str> = KEPT.lines().filter(|line| !line.is_empty() && !line.starts_with('#')).collect();
    let drawings = read_all(KEPT).unwrap();
    assert_eq!(rows.len(), drawings.len());
    for (row, drawing) in rows.into_iter().zip(drawings) {
        assert_eq!(drawing.row(), row);
    }
}

/// Lines of rectclip.rs that open a block which no drawing is known to run.
const NEVER_RUN: [usize; 9] = [102, 111, 529, 591, 606, 608, 795, 862, 1061];

#[test]
fn kept_rows_run_every_block_but_nine() {
    for drawing in read_all(KEPT).unwrap() {
        drawing.answer();
    }
    assert!(reach::lines(false).into_iter().eq(NEVER_RUN), "not run: {:?}", reach::lines(false));
}

#[test]
fn a_printed_row_is_read_again() {
    let mut random = Random::new(1);
    for _ in 0..2_000 {
        let drawing = random_drawing(&mut random, 9);
        assert_eq!(Drawing::read(&drawing.row()), Ok(drawing));
    }
}

#[test]
fn rows_that_are_none() {
    for row in ["", "C;0,0,1,1;2;3", "D;0,0,1,1;2;3;", "C;0,0,1;2;3;", "C;0,0,1,1;-2;3;", "C;0,0,1,1;2;3;x"] {
        assert!(Drawing::read(row).is_err(), "{row}");
    }
}

#[test]
fn the_same_seed_gives_the_same_drawings() {
    let some = |seed| {
        let mut random = Random::new(seed);
        (0..100).map(|_| random_drawing(&mut random, 9)).collect::<Vec<_>>()
    };
    assert_eq!(some(7), some(7));
    assert_ne!(some(7), some(8));
}

#[test]
fn random_drawings_meet_every_answer_but_nine() {
    let mut random = Random::new(2);
    let mut met = [0_u32; 12];
    for _ in 0..20_000 {
        match random_drawing(&mut random, 12).answer() {
            Answer::Refused(number) => met[number as usize] += 1,
            Answer::Drawn(_) => met[0] += 1,
        }
    }
    let numbers: Vec<usize> = (0..12).filter(|&n| met[n] > 0).collect();
    assert_eq!(numbers, [0, 1, 6, 7, 8, 10]);
}

#[test]
fn expected_facts_hold() {
    let mut random = Random::new(3);
    for points in [4, 12, 60] {
        for _ in 0..5_000 {
            let Drawing { kind, rect, path, .. } = random_drawing(&mut random, points);
            if path.len() % 2 == 1 || !in_limit(&rect) || !in_limit(&path) {
                continue;
            }
            let run = run(kind, rect, &path);
            for (name, fact) in FACTS {
                assert!(fact(kind, rect, &path, &run), "{name}: {kind:?} {rect:?} {path:?}");
            }
        }
    }
}
