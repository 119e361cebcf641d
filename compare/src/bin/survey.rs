//! Runs random drawings through the Rust and looks for counterexamples to what is expected of it.
//!
//!     survey COUNT SEED [POINTS]   drawings of about POINTS points at most (12 unless given)
//!
//! Prints what was seen; each counterexample is printed as a row. Ends with 1 if there was one.

use compare::drawings::{random_drawing, Drawing};
use compare::facts::FACTS;
use compare::judge::{in_limit, run, Kind, Run};
use compare::random::Random;
use compare::reach;
use std::collections::BTreeMap;
use std::env;
use std::process::ExitCode;

/// What was seen so far.
#[derive(Default)]
struct Seen {
    closed: u64,
    open: u64,
    walked: u64,
    beyond_limits: u64,
    /// Runs by number of returned paths, up to 4.
    by_paths: BTreeMap<usize, u64>,
    /// Runs by number of turns, up to 4.
    by_turns: BTreeMap<u64, u64>,
    most_turns: u64,
    most_points: usize,
    against: [u64; FACTS.len()],
}

fn main() -> Result<ExitCode, String> {
    let words = env::args().skip(1).map(|w| w.parse::<u64>().map_err(|e| format!("{w}: {e}")));
    let words: Vec<u64> = words.collect::<Result<_, _>>()?;
    let (count, seed, points) = match words[..] {
        [count, seed] => (count, seed, 12),
        [count, seed, points] => (count, seed, points),
        _ => return Err("usage: survey COUNT SEED [POINTS]".to_string()),
    };
    let seen = survey(count, seed, points as usize);
    report(&seen);
    let clean = seen.against.iter().all(|&n| n == 0);
    Ok(if clean { ExitCode::SUCCESS } else { ExitCode::FAILURE })
}

fn survey(count: u64, seed: u64, points: usize) -> Seen {
    let mut random = Random::new(seed);
    let mut seen = Seen::default();
    for done in 1..=count {
        look_at(&mut seen, &random_drawing(&mut random, points));
        if done % count.div_ceil(10) == 0 || done == count {
            eprintln!("{done} of {count}");
        }
    }
    seen
}

fn look_at(seen: &mut Seen, drawing: &Drawing) {
    if drawing.path.len() % 2 == 1 || !in_limit(&drawing.rect) || !in_limit(&drawing.path) {
        seen.beyond_limits += 1;
        return;
    }
    let run = run(drawing.kind, drawing.rect, &drawing.path);
    count_run(seen, drawing.kind, &run);
    for (against, (name, fact)) in seen.against.iter_mut().zip(FACTS) {
        if !fact(drawing.kind, drawing.rect, &drawing.path, &run) {
            *against += 1;
            println!("not so: {name}: {}", drawing.row());
        }
    }
}

fn count_run(seen: &mut Seen, kind: Kind, run: &Run) {
    match kind {
        Kind::Closed => seen.closed += 1,
        Kind::Open => seen.open += 1,
    }
    seen.walked += u64::from(run.points() > 0);
    *seen.by_paths.entry(run.paths.len().min(4)).or_default() += 1;
    *seen.by_turns.entry(run.turns.min(4)).or_default() += 1;
    seen.most_turns = seen.most_turns.max(run.turns);
    seen.most_points = seen.most_points.max(run.points());
}

fn report(seen: &Seen) {
    println!("{} closed and {} open paths, {} of them put points down", seen.closed, seen.open, seen.walked);
    println!("{} beyond the limits were passed over", seen.beyond_limits);
    println!("runs by returned paths (4: or more): {:?}", seen.by_paths);
    println!("runs by turns (4: or more): {:?}", seen.by_turns);
    println!("most turns {}, most points {}", seen.most_turns, seen.most_points);
    println!(
        "{} blocks of rectclip.rs were run; not those that open at lines {:?}",
        reach::lines(true).len(),
        reach::lines(false)
    );
    for (against, (name, _)) in seen.against.iter().zip(FACTS) {
        println!("{against} against: {name}");
    }
}
